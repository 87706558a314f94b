"""The volume's tree: walked, looked at, removed."""

from __future__ import annotations

from contextlib import closing
from itertools import takewhile
from typing import TYPE_CHECKING, Callable, Iterable, Iterator, List, Tuple

from ..protocol import BadAnswer, Code, List as ListQuery, Name, Names, Node, NodeKind, Path, Remove, Stat, limits, printed
from ..wire.operations import Operation, Outcome, now
from ..wire.refusals import expected, refusal
from .preflight import Present

if TYPE_CHECKING:
    from .client import Client

StepTold = Callable[[str, Path, int, int], None]
"""Is called for each step: what was done, the path, its bytes, its commit."""

NAMES_MET = 4 * limits.NODES
"""Names that a walk meets, at most. Those that others move meanwhile may be met again."""


def quiet(*_: object) -> None:
    """Does nothing."""


def walk(client: Client, path: Path) -> Iterator[Tuple[Path, Tuple[Name, ...]]]:
    """Each directory from a path on, with its names in stored order: level by level. Raises where there are more than a volume has."""
    level, met = [path], 0
    with client.held():
        while level:
            found: List[Tuple[Path, Tuple[Name, ...]]] = []
            # All answers of a level are taken first, since whoever walks asks for more between.
            with closing(client.ask_all(ListQuery(at) for at in level)) as answers:
                for at, answer in zip(level, answers):
                    found.append((at, expected(Names, ListQuery(at), answer).names))
                    met += len(found[-1][1])
                    if met > NAMES_MET or len(at) >= limits.DEPTH and found[-1][1]:
                        raise BadAnswer(f"with those of {printed(at)} there are more names than a volume has")
            yield from found
            level = [at + (name.name,) for at, names in found for name in names if name.kind is NodeKind.DIRECTORY]


def look_up(client: Client, paths: Iterable[Path], whole: bool) -> Present:
    """What the volume has at paths and above them; or all that it has."""
    present = Present(whole=whole)
    present.add((), NodeKind.DIRECTORY)
    if whole:
        for at, names in walk(client, ()):
            present.names[at] = [name.name for name in names]
            for name in names:
                present.add(at + (name.name,), name.kind)
        return present
    asked = sorted({path[:depth] for path in paths for depth in range(1, len(path) + 1)})
    for answer, path in zip(client.ask_all(map(Stat, asked)), asked):
        if isinstance(answer, Node):
            present.add(path, answer.kind)
    return present


def remove_tree(client: Client, path: Path, told: StepTold = quiet) -> int:
    """Removes a directory with all below it, from the leaves up; the root itself stays. Gives how many went."""
    with client.held():
        found: List[Tuple[Path, NodeKind]] = []
        for at, names in walk(client, path):
            found += [(at + (name.name,), name.kind) for name in names]
        order = sorted(found, key=lambda node: -len(node[0])) + ([(path, NodeKind.DIRECTORY)] if path else [])
        return remove_paths(client, [at for at, _ in order], told)


def remove_paths(client: Client, paths: Iterable[Path], told: StepTold = quiet) -> int:
    """Removes files and empty directories in this order. Gives how many went; one that is gone already is as good. After a refusal only
    those go that are under way by then: they are told, and then the refusal is raised."""
    count = 0
    refused: List[Outcome] = []
    for outcome in client.run(Operation(Remove, path, now()) for path in takewhile(lambda _: not refused, paths)):
        if outcome.code in (Code.DONE, Code.NOT_FOUND):
            told("removed", outcome.operation.path, 0, outcome.commit)
            count += 1
        else:
            refused.append(outcome)
    if refused:
        raise refusal(refused[0])
    return count


__all__ = ["StepTold", "look_up", "quiet", "remove_paths", "remove_tree", "walk"]
