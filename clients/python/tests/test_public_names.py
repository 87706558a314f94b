"""A public name means one thing in the package: a function, a class or a constant of a module stands in no other module.

`SHARED` has those that mean the same wherever they stand. Each new name in several modules is either renamed, or made one.
"""

from __future__ import annotations

import ast
import unittest
from typing import Dict, Iterator, List, NamedTuple, Set

from .test_imports import modules


class Shared(NamedTuple):
    """Names that may stand in several modules: in which, and why each means the same in all of them."""

    names: str
    modules: str
    why: str


SHARED = [
    Shared("add_commands", "commands.check commands.disc commands.mount commands.read commands.salvage commands.seal commands.volume commands.write", "declares the commands of a module"),
    Shared("INTERRUPTED EPILOG main parser run run_printing", "archive.cli commands.cli", "two programs have these parts"),
    Shared("command", "archive.cli commands.arguments", "declares a command of a program with the options that all have"),
    Shared("check", "archive.closing commands.check", "a command is carried out by the function of its name"),
    Shared("get", "archive.queries commands.read", "the same"),
    Shared("ls", "archive.lookups commands.read", "the same"),
    Shared("mount", "archive.mount commands.mount", "the same"),
    Shared("status", "archive.queries commands.volume", "the same"),
    Shared("BLOCK CLIENTS DEPTH NODES", "protocol.limits reader.basics", "the reader shares no code with what writes, so it says the format's numbers itself"),
    Shared("Path show", "protocol.names reader.volume", "the same"),
    Shared("T", "reader.front reader.mend", "any type"),
]


def defined(body: List[ast.stmt]) -> Iterator[str]:
    """The names that statements of a module define, whatever they begin with. What is imported is not defined."""
    for node in body:
        if isinstance(node, (ast.FunctionDef, ast.AsyncFunctionDef, ast.ClassDef)):
            yield node.name
        elif isinstance(node, (ast.Assign, ast.AnnAssign)):
            targets = node.targets if isinstance(node, ast.Assign) else [node.target]
            yield from (each.id for target in targets for each in ast.walk(target) if isinstance(each, ast.Name) and isinstance(each.ctx, ast.Store))
        elif isinstance(node, ast.If):
            yield from defined(node.body + node.orelse)
        elif isinstance(node, ast.Try):
            yield from defined(node.body + [each for handler in node.handlers for each in handler.body] + node.orelse + node.finalbody)


def public_names(source: str) -> Set[str]:
    """The public names that a module defines."""
    return {name for name in defined(ast.parse(source).body) if not name.startswith("_")}


def in_several(of: Dict[str, Set[str]]) -> Dict[str, List[str]]:
    """The names that several modules define, with those modules."""
    found: Dict[str, List[str]] = {}
    for module in sorted(of):
        for name in of[module]:
            found.setdefault(name, []).append(module)
    return {name: places for name, places in sorted(found.items()) if len(places) > 1}


def shared() -> Dict[str, List[str]]:
    """What `SHARED` says, in the form of `in_several`."""
    of: Dict[str, Set[str]] = {}
    for entry in SHARED:
        for module in entry.modules.split():
            of.setdefault(f"udfburn.{module}", set()).update(entry.names.split())
    return in_several(of)


class PublicNames(unittest.TestCase):
    maxDiff = None

    def test_each_stands_in_one_module(self) -> None:
        of: Dict[str, Set[str]] = {}
        for name, path in modules().items():
            with open(path, encoding="utf-8") as file:
                of[name] = public_names(file.read())
        self.assertGreater(sum(map(len, of.values())), 1000)
        self.assertEqual(in_several(of), shared())

    def test_a_name_in_two_modules_is_found(self) -> None:
        sources = {
            "one": "from os import path\nclass Tree: ...\ndef look(): ...\n_HIDDEN = FIRST = 1\n",
            "two": "from os import path\ntry:\n    FIRST, LAST = 1, 2\nexcept OSError:\n    LAST = 3\nif FIRST:\n    class Tree: ...\n_HIDDEN = 2\n",
            "three": "def other():\n    def look(): ...\n    LAST = 1\nTree.look = 1\n",
        }
        found = in_several({name: public_names(source) for name, source in sources.items()})
        self.assertEqual(found, {"FIRST": ["one", "two"], "Tree": ["one", "two"]})


if __name__ == "__main__":
    unittest.main()
