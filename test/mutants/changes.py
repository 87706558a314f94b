"""Small changes of a Python module, each of which is likely to be a bug: a mutation tester's.

A change is of one expression or statement: an operator of a comparison, of arithmetic or of bits, a number by one, `and` for `or`, a
condition's opposite, a statement that is dropped, two arguments that are exchanged, None that is returned."""

from __future__ import annotations

import ast
import copy
import hashlib
from collections import Counter
from pathlib import Path
from typing import Dict, Iterator, List, NamedTuple, Tuple

COMPARISONS: Dict[type, ast.cmpop] = {
    ast.Lt: ast.LtE(), ast.LtE: ast.Lt(), ast.Gt: ast.GtE(), ast.GtE: ast.Gt(), ast.Eq: ast.NotEq(), ast.NotEq: ast.Eq(),
    ast.Is: ast.IsNot(), ast.IsNot: ast.Is(), ast.In: ast.NotIn(), ast.NotIn: ast.In(),
}

OPERATORS: Dict[type, ast.operator] = {
    ast.Add: ast.Sub(), ast.Sub: ast.Add(), ast.Mult: ast.FloorDiv(), ast.FloorDiv: ast.Mult(), ast.Mod: ast.FloorDiv(),
    ast.LShift: ast.RShift(), ast.RShift: ast.LShift(), ast.BitAnd: ast.BitOr(), ast.BitOr: ast.BitAnd(), ast.BitXor: ast.BitOr(),
}

Part = Tuple[ast.AST, str]
"""What is replaced, and by what."""


class Change(NamedTuple):
    """A change of a module."""

    path: str
    """The module's path below the package."""
    function: str
    """The function that it is in, with its classes; '' at the top of the module."""
    line: int
    run: int
    """The line that a test has to run; 0 where it is run by the import."""
    names: Tuple[str, ...]
    """What the statement binds, where the import runs it."""
    before: str
    after: str
    start: int
    """In bytes of the module."""
    end: int

    @property
    def key(self) -> str:
        """What it is called where the module has another name, or other lines."""
        return f"{self.function}: {self.before} -> {self.after}"

    def applied(self, source: bytes) -> bytes:
        """The module with the change."""
        after = self.after if self.after == "pass" else f"({self.after})"
        return source[: self.start] + after.encode() + source[self.end :]


def changed_operators(node: ast.expr) -> Iterator[ast.expr]:
    """An expression with another operator."""
    if isinstance(node, ast.Compare):
        for at, operator in enumerate(node.ops):
            other = copy.deepcopy(node)
            other.ops[at] = COMPARISONS[type(operator)]
            yield other
    elif isinstance(node, ast.BinOp) and type(node.op) in OPERATORS and not is_text(node):
        yield ast.BinOp(node.left, OPERATORS[type(node.op)], node.right)
    elif isinstance(node, ast.BoolOp):
        yield ast.BoolOp(ast.Or() if isinstance(node.op, ast.And) else ast.And(), node.values)
    elif isinstance(node, ast.UnaryOp) and isinstance(node.op, ast.Not):
        yield node.operand
    elif isinstance(node, ast.Constant) and type(node.value) is int:
        yield ast.Constant(node.value + 1)
        yield ast.Constant(node.value - 1)
    elif isinstance(node, ast.Constant) and type(node.value) is bool:
        yield ast.Constant(not node.value)
    elif isinstance(node, ast.Call):
        yield from exchanged(node)


def is_text(node: ast.BinOp) -> bool:
    """Whether it makes a text or bytes: another operator would never run."""
    return any(isinstance(side, ast.JoinedStr) or (isinstance(side, ast.Constant) and isinstance(side.value, (str, bytes))) for side in (node.left, node.right))


def exchanged(node: ast.Call) -> Iterator[ast.expr]:
    """A call with two neighbouring arguments exchanged."""
    for at in range(len(node.args) - 1):
        first, second = node.args[at : at + 2]
        if not isinstance(first, ast.Starred) and not isinstance(second, ast.Starred) and ast.dump(first) != ast.dump(second):
            yield ast.Call(node.func, [*node.args[:at], second, first, *node.args[at + 2 :]], node.keywords)


def changed(node: ast.AST) -> Iterator[Part]:
    """The changes of a node itself."""
    if isinstance(node, ast.expr):
        for other in changed_operators(node):
            yield node, ast.unparse(other)
    if isinstance(node, (ast.If, ast.While, ast.IfExp)) and not isinstance(node.test, (ast.Compare, ast.Constant, ast.UnaryOp)):
        yield node.test, f"not ({ast.unparse(node.test)})"
    if isinstance(node, ast.Return) and node.value and not (isinstance(node.value, ast.Constant) and node.value.value is None):
        yield node.value, "None"
    if is_dropped(node):
        yield node, "pass"


def is_dropped(node: ast.AST) -> bool:
    """Whether it is a statement without which a function can still be run."""
    if isinstance(node, ast.Expr):
        return isinstance(node.value, ast.Call)
    if isinstance(node, ast.Assign):
        return isinstance(node.targets[0], (ast.Attribute, ast.Subscript))
    return isinstance(node, (ast.Raise, ast.AugAssign, ast.Delete, ast.Continue, ast.Break))


def children(node: ast.AST) -> Iterator[ast.AST]:
    """The parts of a node that run: no annotation, and no text, since Python does not say where its parts are."""
    if isinstance(node, ast.AnnAssign):
        yield from [node.value] if node.value else []
    elif isinstance(node, ast.arguments):
        yield from [default for default in (*node.defaults, *node.kw_defaults) if default]
    elif isinstance(node, (ast.FunctionDef, ast.AsyncFunctionDef)):
        yield from (node.args, *node.body)
    elif isinstance(node, ast.If) and isinstance(node.test, ast.Name) and node.test.id == "TYPE_CHECKING":
        yield from node.orelse
    elif not isinstance(node, (ast.JoinedStr, ast.Assert)):
        yield from ast.iter_child_nodes(node)


class Place(NamedTuple):
    """Where a node is."""

    function: str = ""
    run: int = 0
    names: Tuple[str, ...] = ()


def entered(node: ast.AST, place: Place) -> Place:
    """The place of a node's parts."""
    if isinstance(node, (ast.FunctionDef, ast.AsyncFunctionDef, ast.ClassDef)):
        name = f"{place.function}.{node.name}".lstrip(".")
        # A default is of use where the function runs.
        return Place(name, 0, (node.name,)) if isinstance(node, ast.ClassDef) else Place(name, first_line(node.body))
    if isinstance(node, ast.stmt) and place.run:
        return place._replace(run=node.lineno)
    if isinstance(node, ast.Lambda):
        return place._replace(run=node.lineno)
    bound = node.targets if isinstance(node, ast.Assign) else [node.target] if isinstance(node, ast.AnnAssign) else []
    names = tuple(each.id for target in bound for each in ast.walk(target) if isinstance(each, ast.Name))
    return place._replace(names=names) if names and not place.run else place


def first_line(body: List[ast.stmt]) -> int:
    """The first line of a function that runs: not that of its description."""
    described = isinstance(body[0], ast.Expr) and isinstance(body[0].value, ast.Constant)
    return body[1 if described and len(body) > 1 else 0].lineno


def found_in(node: ast.AST, place: Place) -> Iterator[Tuple[Place, Part]]:
    """The changes of a node and its parts."""
    place = entered(node, place)
    for part in changed(node):
        yield place, part
    for child in children(node):
        yield from found_in(child, place)


def changes_of(package: Path, path: str) -> List[Change]:
    """All changes of a module."""
    source = (package / path).read_bytes()
    starts = [0]
    for line in source.splitlines(keepends=True):
        starts.append(starts[-1] + len(line))
    made: List[Change] = []
    for place, (node, after) in found_in(ast.parse(source), Place()):
        assert isinstance(node, (ast.expr, ast.stmt)) and node.end_lineno is not None and node.end_col_offset is not None
        start, end = starts[node.lineno - 1] + node.col_offset, starts[node.end_lineno - 1] + node.end_col_offset
        made.append(Change(path, place.function, node.lineno, place.run, place.names, ast.unparse(node), after, start, end))
    return made


def chosen(found: List[Change], count: int, seed: int) -> List[Change]:
    """So many of the changes, by a seed. A change is chosen again where other code changes or a module is renamed."""
    ranks: Dict[Change, bytes] = {}
    equal: "Counter[str]" = Counter()
    for change in found:
        equal[change.key] += 1
        ranks[change] = hashlib.sha256(f"{seed} {change.key} {equal[change.key]}".encode()).digest()
    ordered = sorted(ranks, key=lambda change: ranks[change])[:count]
    return sorted(ordered, key=lambda change: (change.path, change.line, change.start, change.after))
