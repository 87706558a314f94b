"""The modules of the package import each other in one direction, also within functions: a room imports from rooms below it alone.
What is for types alone does not count."""

from __future__ import annotations

import ast
import os
import unittest
from typing import Dict, Iterator, List, Set

import udfburn

TOP = os.path.dirname(udfburn.__file__)

PUBLIC = "the public names"
ROOMS = [
    "protocol", "base", "wire", "ledger", "local", "reader", "image", "discs", "session", "trees", "salvage", "mounting", PUBLIC, "commands", "archive", "__main__",
]
"""The rooms from the lowest to the highest."""


def modules() -> Dict[str, str]:
    """The modules of the package by their names, with their paths."""
    found: Dict[str, str] = {}
    for folder, _, files in os.walk(TOP):
        for file in files:
            if file.endswith(".py"):
                path = os.path.join(folder, file)
                name = os.path.relpath(path, os.path.dirname(TOP))[: -len(".py")].replace(os.sep, ".")
                found[name[: -len(".__init__")] if name.endswith(".__init__") else name] = path
    return found


def imports(node: ast.AST) -> Iterator[ast.ImportFrom]:
    """The imports below a node, but those for types alone."""
    for child in ast.iter_child_nodes(node):
        if isinstance(child, ast.If) and isinstance(child.test, ast.Name) and child.test.id == "TYPE_CHECKING":
            continue
        if isinstance(child, ast.ImportFrom) and child.level:
            yield child
        yield from imports(child)


def imported(name: str, path: str, known: Dict[str, str]) -> Set[str]:
    """The modules of the package that a module imports."""
    with open(path, encoding="utf-8") as file:
        tree = ast.parse(file.read())
    package = name if path.endswith("__init__.py") else name.rpartition(".")[0]
    found: Set[str] = set()
    for line in imports(tree):
        parts = package.split(".")
        base = ".".join(parts[: len(parts) - line.level + 1] + ([line.module] if line.module else []))
        found |= {f"{base}.{each.name}" if f"{base}.{each.name}" in known else base for each in line.names}
    return found - {name}


def circle(of: Dict[str, Set[str]]) -> List[str]:
    """Modules that import each other in a circle; none where there is no circle."""
    left = {name: set(names) for name, names in of.items()}
    while True:
        ends = [name for name, names in left.items() if not names & left.keys()]
        if not ends:
            return sorted(left)
        for name in ends:
            del left[name]
        if not left:
            return []


def room_of(name: str) -> str:
    """The room of a module by its name, as `udfburn.base.errors`."""
    _, _, inner = name.partition(".")
    return inner.split(".")[0] or PUBLIC


def turns_back(of: Dict[str, Set[str]]) -> List[str]:
    """The imports from a room that is further up."""
    place = {room: at for at, room in enumerate(ROOMS)}
    return sorted(f"{name} imports {other}" for name, names in of.items() for other in names if place[room_of(other)] > place[room_of(name)])


class Imports(unittest.TestCase):
    def setUp(self) -> None:
        self.known = modules()
        self.of = {name: imported(name, path, self.known) for name, path in self.known.items()}

    def test_no_circle(self) -> None:
        self.assertGreater(len(self.known), 100)
        self.assertEqual(circle(self.of), [])

    def test_a_circle_is_found(self) -> None:
        self.assertEqual(circle({"a": {"b"}, "b": {"c"}, "c": {"b"}, "d": set()}), ["a", "b", "c"])

    def test_each_module_is_in_a_room(self) -> None:
        self.assertEqual({room_of(name) for name in self.known}, set(ROOMS))

    def test_no_room_imports_from_one_further_up(self) -> None:
        self.assertEqual(turns_back(self.of), [])

    def test_an_import_from_further_up_is_found(self) -> None:
        of = {"udfburn.wire.connection": {"udfburn.base.errors", "udfburn.session.session"}, "udfburn.trees.tree": {"udfburn"}, "udfburn": {"udfburn.trees.client"}}
        self.assertEqual(turns_back(of), ["udfburn.trees.tree imports udfburn", "udfburn.wire.connection imports udfburn.session.session"])

    def test_a_room_says_what_is_in_it(self) -> None:
        """The first page of a room has three things in few lines: what is here, who may use it, what it may use."""
        rooms = {name: path for name, path in self.known.items() if room_of(name) in ROOMS[:-1] and name.count(".") == 1}
        self.assertEqual(len(rooms), len(ROOMS) - 2)
        for name, path in rooms.items():
            with self.subTest(name), open(path, encoding="utf-8") as file:
                said = ast.get_docstring(ast.parse(file.read())) or ""
                self.assertRegex(said, r"(?s)\A[`A-Z].*Who may use it: .*\. What it may use: .*\.\Z")


if __name__ == "__main__":
    unittest.main()
