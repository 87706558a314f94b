"""Only one module opens files below a folder that the user named. All other calls that take a path are listed here, each with why it may."""

from __future__ import annotations

import ast
import os
import unittest
from typing import Dict, Iterator, List, Set, Tuple

from .test_imports import modules

CALLS: Dict[str, Set[str]] = {
    "os": {
        "access", "chdir", "chmod", "chown", "fwalk", "link", "listdir", "lstat", "makedirs", "mkdir", "mkfifo", "open", "readlink", "remove", "removedirs", "rename",
        "renames", "replace", "rmdir", "scandir", "stat", "symlink", "truncate", "unlink", "utime", "walk",
    },
    "os.path": {"exists", "getmtime", "getsize", "isdir", "isfile", "islink", "lexists", "samefile"},
    "shutil": {"copy", "copy2", "copyfile", "copytree", "move", "rmtree", "chown"},
    "tempfile": {"NamedTemporaryFile", "TemporaryDirectory", "TemporaryFile", "mkdtemp", "mkstemp"},
    "sqlite3": {"connect"},
    "io": {"open"},
}
"""The calls of the standard library that take a path."""

OWN = "the file is the user's own, in a folder of the user's own state"
NAMED = "the user named the path, and it is not one below a folder that was named"
OURS = "the folder was made just now, for this user alone"
KIND = "it only says what kind of thing the user named, and nothing is read or written by it"
SYSTEM = "the path is the system's, and no user writes there"
FOLDER = "the name is this program's own, in the archive's folder or in one for copies, and the call neither opens it nor follows a link that has it"
OPENED = "the file is open already: it is a descriptor"

BELOW = "the name is in a folder that is open, by its descriptor, and no link that has it is followed"
DEVICE = "the user named a drive, of which no folder has others' files"

ALLOWED: Dict[str, Dict[str, str]] = {
    "base.beneath": {"*": "this is the module"},
    "base.streams": {"os.open": SYSTEM, "open": SYSTEM},
    "archive.adopt": {"os.path.isfile": KIND, "os.path.lexists": FOLDER},
    "archive.base": {"os.path.lexists": FOLDER, "sqlite3.connect": OWN},
    "archive.close": {"os.path.getsize": KIND, "os.path.isfile": KIND, "os.path.lexists": FOLDER, "tempfile.TemporaryDirectory": OURS, "open": OURS},
    "archive.commands": {"os.path.exists": KIND},
    "archive.config": {"os.listdir": KIND, "os.scandir": KIND},
    "archive.exclude": {"open": BELOW},
    "archive.get": {"os.path.isdir": KIND, "os.path.lexists": KIND},
    "archive.markers": {"os.stat": KIND},
    "archive.places": {"os.open": "it reads nothing, and waits for no pipe: what it opens is made durable", "os.path.isfile": KIND, "os.stat": KIND},
    "archive.fetching": {"os.path.getsize": KIND},
    "archive.rebuild": {"os.path.isfile": KIND, "os.listdir": KIND, "os.open": SYSTEM},
    "archive.remake": {"os.access": KIND, "os.path.isfile": KIND, "tempfile.mkdtemp": OURS, "shutil.rmtree": OURS, "sqlite3.connect": OWN},
    "archive.parity": {"os.listdir": FOLDER, "os.path.getsize": KIND},
    "archive.rclone": {"os.path.getsize": KIND, "tempfile.TemporaryFile": OURS},
    "archive.remotes": {"os.path.samefile": KIND},
    "archive.seen": {"os.path.lexists": FOLDER, "sqlite3.connect": OWN},
    "archive.scan": {"os.stat": KIND, "os.path.isdir": KIND},
    "archive.status": {"os.path.isfile": KIND},
    "archive.volume": {"os.access": KIND, "os.path.lexists": FOLDER, "os.path.getsize": KIND},
    "discs.burning": {"open": SYSTEM, "os.open": DEVICE, "os.path.samefile": DEVICE, "os.stat": DEVICE},
    "commands.check": {"os.stat": KIND},
    "wire.connection": {"open": SYSTEM, "os.readlink": SYSTEM, "os.open": NAMED, "tempfile.TemporaryFile": OURS},
    "commands.disc": {"os.path.getsize": KIND, "os.path.lexists": KIND, "os.stat": KIND},
    "wire.endpoint": {"os.path.isfile": KIND},
    "image.identity": {"os.listdir": SYSTEM, "os.stat": "it finds which file of /proc is the one that the user named, and opens none"},
    "ledger.ledger": {"os.rename": OWN, "os.stat": OWN},
    "base.durable": {"os.open": OWN, "os.path.isdir": OWN, "os.mkdir": OWN},
    "ledger.file": {"os.open": OWN, "os.unlink": OWN, "os.stat": OWN, "sqlite3.connect": OWN},
    "ledger.reading": {"tempfile.TemporaryDirectory": OURS, "os.open": OWN, "os.path.exists": OWN, "shutil.copyfile": OWN},
    "mounting.fuse": {"os.listdir": KIND, "os.path.exists": SYSTEM},
    "base.own_files": {"os.utime": OPENED},
    "image.past": {"shutil.rmtree": OURS, "os.access": KIND},
    "commands.read": {"os.path.isdir": KIND},
    "salvage.ledger": {"os.path.exists": KIND},
    "salvage.write": {"os.utime": OPENED},
    "local.saving": {"os.utime": OPENED, "os.path.isdir": SYSTEM},
    "base.scratch": {"tempfile.mkdtemp": OURS, "os.path.isdir": OURS, "os.open": OURS, "os.listdir": KIND, "shutil.rmtree": OURS},
    "commands.volume": {"os.stat": KIND},
    "commands.write": {"os.path.isdir": KIND},
}
"""The calls of each module that may be, and why."""


def names_of(tree: ast.AST) -> Dict[str, str]:
    """What the names of a module stand for, as far as it imports them."""
    found: Dict[str, str] = {}
    for node in ast.walk(tree):
        if isinstance(node, ast.Import):
            found.update({each.asname or each.name: each.name for each in node.names})
        elif isinstance(node, ast.ImportFrom) and not node.level:
            found.update({each.asname or each.name: f"{node.module}.{each.name}" for each in node.names})
    return found


def dotted(node: ast.AST, known: Dict[str, str]) -> str:
    """The name of what is called, as it is in the standard library."""
    if isinstance(node, ast.Name):
        return known.get(node.id, node.id)
    if isinstance(node, ast.Attribute):
        return f"{dotted(node.value, known)}.{node.attr}"
    return "?"


def path_calls(text: str) -> Iterator[Tuple[int, str]]:
    """The calls of a module that take a path, each with its line. What is given to another call is as good as called."""
    tree = ast.parse(text)
    known = names_of(tree)
    for node in ast.walk(tree):
        if isinstance(node, (ast.Name, ast.Attribute)) and isinstance(node.ctx, ast.Load):
            name = dotted(node, known)
            module, _, call = name.rpartition(".")
            if name == "open" or call in CALLS.get(module, ()):
                yield node.lineno, name


def is_of_descriptor(text: str, line: int, name: str) -> bool:
    """Whether what is opened is a descriptor that the module gave."""
    if name != "open":
        return False
    said = text.splitlines()[line - 1]
    return any(f"open({call}" in said for call in ("descriptor,", "open_", "root.open_file(", "target, "))


class Paths(unittest.TestCase):
    def test_no_other_module_opens(self) -> None:
        used: Set[Tuple[str, str]] = set()
        wrong: List[str] = []
        for name, path in modules().items():
            module = name[len("udfburn.") :]
            with open(path, encoding="utf-8") as file:
                text = file.read()
            allowed = ALLOWED.get(module, {})
            for line, call in path_calls(text):
                if call in allowed or "*" in allowed:
                    used.add((module, call if call in allowed else "*"))
                elif not is_of_descriptor(text, line, call):
                    wrong.append(f"{os.path.relpath(path)}:{line}: {call}")
        self.assertEqual(wrong, [])
        self.assertEqual({(module, call) for module, calls in ALLOWED.items() for call in calls} - used, set(), "what is allowed is needed")

    def test_calls_are_found(self) -> None:
        text = "import os\nfrom os import stat as look\nimport shutil\nos.path.isdir(x)\nlook(x)\nmap(shutil.copy, y)\nopen(z)\nself.open(z)\nos.fstat(1)\n"
        self.assertEqual(sorted(path_calls(text)), [(4, "os.path.isdir"), (5, "os.stat"), (6, "shutil.copy"), (7, "open")])


if __name__ == "__main__":
    unittest.main()
