#!/usr/bin/env python3
"""The modules of the Python client: what each does, and which modules import it.

usage: test/modules.py          prints them
       test/modules.py check    compares the plan in docs/ARCHITECTURE.md with the imports; the status is 1 if they differ

The plan is a table of rooms, from the lowest to the highest: name, modules, what they do, and which rooms use it. A room is a package,
and `reader/` stands for all modules of the room `reader`. Each module is in one room, no room imports from one below it in the table,
and the last column has the rooms that import from this one. Imports for types alone do not count.
"""

from __future__ import annotations

import ast
import re
import sys
from pathlib import Path
from typing import Dict, Iterator, List, NamedTuple, Set

TOP = Path(__file__).resolve().parents[1]
PACKAGE = TOP / "clients/python/udfburn"
PLAN = TOP / "docs/ARCHITECTURE.md"
HEAD = "| Room | Modules | What they do | Used by |"


class Room(NamedTuple):
    """A row of the plan."""

    name: str
    modules: List[str]
    users: Set[str]


def modules() -> Dict[str, Path]:
    """The modules below the package, by their names within it; those that only run or describe a package are left out."""
    found = {path.relative_to(PACKAGE).with_suffix("").as_posix(): path for path in PACKAGE.rglob("*.py")}
    return {name: path for name, path in found.items() if name not in ("__init__", "__main__")}


def imports(node: ast.AST) -> Iterator[ast.ImportFrom]:
    """The relative imports below a node, but those for types alone."""
    for child in ast.iter_child_nodes(node):
        if isinstance(child, ast.If) and isinstance(child.test, ast.Name) and child.test.id == "TYPE_CHECKING":
            continue
        if isinstance(child, ast.ImportFrom) and child.level:
            yield child
        yield from imports(child)


def imported(name: str, path: Path, known: Dict[str, Path]) -> Set[str]:
    """The modules that a module imports."""
    found: Set[str] = set()
    folders = name.split("/")[:-1]
    for line in imports(ast.parse(path.read_text(encoding="utf-8"))):
        base = folders[: len(folders) + 1 - line.level] + (line.module.split(".") if line.module else [])
        for each in line.names:
            choices = ["/".join(base + [each.name]), "/".join(base), "/".join(base + ["__init__"])]
            found.update([choice for choice in choices if choice in known][:1])
    return found - {name}


def plan(text: str) -> List[Room]:
    """The rooms of the table in a document."""
    rows = [line.strip("| ").split(" | ") for line in text.split(HEAD, 1)[1].splitlines()[2:]] if HEAD in text else []
    table = rows[: next((at for at, row in enumerate(rows) if len(row) < 3), len(rows))]
    return [Room(row[0], re.findall(r"`([^`]+)`", row[1]), set(re.findall(r"\w+", row[3])) if len(row) > 3 else set()) for row in table]


def differences(rooms: List[Room], uses: Dict[str, Set[str]]) -> Iterator[str]:
    """In what the plan differs from the imports."""
    if not rooms:
        yield "there is no plan"
    place: Dict[str, int] = {}
    for at, room in enumerate(rooms):
        first = f"{room.name}/__init__"
        place.update({first: at} if first in uses else {})
        for word in room.modules:
            named = [name for name in uses if name.startswith(word)] if word == f"{room.name}/" else [f"{room.name}/{word}"]
            for name in named:
                if name not in uses:
                    yield f"there is no module {name}"
                place[name] = at
    for name in sorted(set(uses) - set(place)):
        yield f"{name} is in no room"
    users: List[Set[str]] = [set() for _ in rooms]
    for name, names in uses.items():
        for other in names & place.keys():
            if name in place and place[name] < place[other]:
                yield f"{name} imports {other}, of a room above its own"
            elif name in place and place[name] > place[other]:
                users[place[other]].add(rooms[place[name]].name)
    for room, found in zip(rooms, users):
        if found != room.users:
            yield f"{room.name} is used by {', '.join(sorted(found)) or 'none'}, and not by {', '.join(sorted(room.users)) or 'none'}"


def main(words: List[str]) -> int:
    if words not in ([], ["check"]):
        print("usage: test/modules.py [check]", file=sys.stderr)
        return 2
    known = modules()
    uses = {name: imported(name, path, known) for name, path in known.items()}
    if words:
        wrong = list(differences(plan(PLAN.read_text(encoding="utf-8")), uses))
        for line in wrong:
            print(f"modules: {line}")
        return 1 if wrong else 0
    for name, path in sorted(known.items()):
        does = (ast.get_docstring(ast.parse(path.read_text(encoding="utf-8"))) or "").split("\n\n")[0].replace("\n", " ")
        print(f"{name}: {does}\n    used by: {', '.join(sorted(user for user in uses if name in uses[user])) or 'none'}")
    return 0


if __name__ == "__main__":
    sys.exit(main(sys.argv[1:]))
