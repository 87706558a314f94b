"""Trees that are copied and compared, and the blocks that one takes."""

from __future__ import annotations

import inspect
import os
import stat
import struct
import unittest
from typing import Any, Dict, Iterator, List, Optional
from unittest import mock

from udfburn import Client
from udfburn import protocol as p
from udfburn.base import errors as e, older_parts
from udfburn.image import blocks
from udfburn.local import saving
from udfburn.protocol.units import Address
from udfburn.trees import fetch
from udfburn.trees.jobs import ImportOptions

from .with_files import Local


class Fetch(Local):
    def test_get_tree(self) -> None:
        self.write("a/b", b"bytes")
        self.write("c", b"")
        os.mkdir(os.path.join(self.folder, "empty"))
        self.put()
        back = os.path.join(self.room, "back")
        client = self.client()
        self.assertEqual(fetch.get_tree(client, ("x",), back), 2)
        self.assertEqual(sorted(os.listdir(back)), ["a", "c", "empty"])
        with open(os.path.join(back, "a", "b"), "rb") as file:
            self.assertEqual(file.read(), b"bytes")
        self.assertEqual(os.stat(os.path.join(back, "a", "b")).st_mtime_ns // 1000, client.stat("/x/a/b").moment)
        self.assertEqual(fetch.get_tree(client, ("x",), back), 2)
        os.unlink(os.path.join(back, "a", "b"))
        os.rmdir(os.path.join(back, "a"))
        os.symlink(self.folder, os.path.join(back, "a"))
        for force in (False, True):
            with self.assertRaisesRegex(e.SourceError, "symbolic link"):
                fetch.get_tree(client, ("x",), back, force=force)

    def test_the_names_are_on_the_disk(self) -> None:
        """Whoever is told that all was got may remove it from the volume: what is synchronised last of a folder is all its names."""
        self.write("a/b", b"bytes")
        self.write("c")
        os.mkdir(os.path.join(self.folder, "empty"))
        self.put()
        synced, real = {}, os.fsync
        where = os.path.realpath(self.room)

        def fsync(descriptor: int) -> None:
            path = os.readlink(f"/proc/self/fd/{descriptor}")
            synced[os.path.relpath(path, where)] = sorted(os.listdir(path)) if os.path.isdir(path) else []
            real(descriptor)

        with mock.patch("udfburn.base.disk.os.fsync", fsync):
            fetch.get_tree(self.client(), ("x",), os.path.join(where, "new", "back"))
        for folder, names in (("new", ["back"]), ("new/back", ["a", "c", "empty"]), ("new/back/a", ["b"]), ("new/back/empty", [])):
            self.assertEqual(synced.get(folder), names, folder)
        self.assertIn("new", synced["."])

    def test_a_name_that_another_takes_meanwhile(self) -> None:
        """Also on a file system without links what is there by then stays as it is."""
        local, refused = os.path.join(self.room, "new"), PermissionError(1, "Operation not permitted")

        def parts() -> Iterator[bytes]:
            with open(local, "wb") as file:
                file.write(b"of another")
            yield b"of the volume"

        for link, unnamed in ((os.link, saving.UNNAMED), (os.link, 0), (mock.Mock(side_effect=refused), 0)):
            with mock.patch("udfburn.base.beneath.os.link", link), mock.patch.object(saving, "UNNAMED", unnamed):
                with self.assertRaisesRegex(e.SourceError, "already exists"):
                    fetch.save(local, parts(), None, False)
                with open(local, "rb") as file:
                    self.assertEqual(file.read(), b"of another")
                os.unlink(local)
                self.assertEqual(fetch.save(local, iter([b"of the volume"]), None, False), 13)
                with open(local, "rb") as file:
                    self.assertEqual(file.read(), b"of the volume")
                os.unlink(local)
        self.assertEqual([name for name in os.listdir(self.room) if name.startswith(".udfburn-")], [])

    def test_what_is_no_file_is_not_replaced(self) -> None:
        """Not by force either: else a superuser who writes to a device has a file in its place."""
        pipe, local, link = (os.path.join(self.room, name) for name in ("pipe", "file", "link"))
        os.mkfifo(pipe)
        os.symlink(pipe, link)
        self.write("../file", b"old")
        with self.assertRaisesRegex(e.SourceError, "pipe: is a named pipe"):
            fetch.save(pipe, iter([b"new"]), None, True)
        for replaced in (local, link):
            fetch.save(replaced, iter([b"new"]), None, True)
            with open(replaced, "rb") as file:
                self.assertEqual(file.read(), b"new")
        self.assertTrue(stat.S_ISFIFO(os.lstat(pipe).st_mode))

    def test_a_server_names_more_than_a_volume_has(self) -> None:
        """What has no end, by its depth or by its width, is no answer."""
        asked: List[p.Path] = []
        for width in (1, 100, 512):
            names = p.Names(tuple([p.Name(p.NodeKind.DIRECTORY, str(index)) for index in range(width)]))

            def before(payload: bytes, names: p.Names = names) -> Optional[p.Answer]:
                message = p.decode_message(payload)
                asked.extend([message.path] if isinstance(message, p.List) else [])
                return names if isinstance(message, p.List) else None

            self.server.before = before
            with self.subTest(width=width), self.client() as client:
                with self.assertRaisesRegex(p.BadAnswer, "more names than a volume has"):
                    fetch.get_tree(client, (), os.path.join(self.room, "back"))
            self.assertLess(len(asked), 300)
            asked.clear()

    def test_a_server_names_no_other_place(self) -> None:
        """A name like `..` in a directory never reaches the local disk."""
        for name in (b"..", b"../evil", b"/evil", b"", b"a\0b"):
            payload = struct.pack("<HHBH", 65, 1, 0, len(name)) + name
            self.server.say = lambda _, answer, payload=payload: p.frame(payload)  # type: ignore[misc]
            with self.assertRaises(p.BadAnswer):
                fetch.get_tree(self.client(), (), os.path.join(self.room, "back"))

    def test_verify(self) -> None:
        for name in ("same", "other", "gone", "kind/file"):
            self.write(name, b"bytes")
        self.put()
        self.write("other", b"BYTES")
        self.write("new")
        os.unlink(os.path.join(self.folder, "gone"))
        os.unlink(os.path.join(self.folder, "kind", "file"))
        os.rmdir(os.path.join(self.folder, "kind"))
        self.write("kind")
        result = fetch.verify_tree(self.client(), self.folder, ("x",))
        self.assertEqual(sorted(result.differences), [("/x/kind", "is a directory there"), ("/x/new", "is not there"), ("/x/other", "has other bytes there")])
        self.assertEqual(result.extra, ["/x/gone", "/x/kind/file"])
        self.assertEqual(result.files, 2)

    def test_calls_between_answers(self) -> None:
        client = self.client()
        client.put("/a", b"")
        answers = client.ask_all([p.Get(("a",))] * 40)
        next(answers)
        with self.assertRaises(e.UsageError):
            client.get("/a")
        answers.close()
        self.assertEqual(client.get("/a"), b"")


class Parts(unittest.TestCase):
    def test_joined(self) -> None:
        full = p.limits.FILE
        files, rest = older_parts.joined_parts([("a.000", full), ("a.001", full), ("a.002", 5), ("a.003", 5), ("b.000", full), ("c.000", 5), ("c.001", 5), ("d.000", None), ("e", 1), ("e.000", full), ("e.001", 1)])
        self.assertEqual(files, {"a": ["a.000", "a.001", "a.002"]})
        self.assertEqual(rest, ["a.003", "b.000", "c.000", "c.001", "d.000", "e", "e.000", "e.001"])


class Reckoned(unittest.TestCase):
    """Blocks, by the rows of the layout: the first create takes five blocks, and may need six."""

    def test_the_first_create(self) -> None:
        for capacity, fits in ((267, False), (268, True)):
            space = blocks.Space(capacity, Address(262), {7})
            self.assertEqual(blocks.Reckoner(space).create(("a",), 5), fits)
            self.assertEqual(space.next, 267)

    def test_a_directory_of_two_blocks(self) -> None:
        """48 names of a letter fill 1,960 bytes of a block. 21 letters more begin the next one, 17 and 49 do not."""
        for letters, full in ((21, 1), (17, 0), (49, 0)):
            layout = blocks.Layout()
            for name in "abcdefghijklmnopqrstuvwxyzABCDEFGHIJKLMNOPQRSTUV":
                layout.add(name)
            self.assertEqual((layout.full, layout.at), (0, 1960))
            layout.add("x" * letters)
            self.assertEqual(layout.full, full, letters)


class Typed(unittest.TestCase):
    """What a type checker can say of calls of the client: each names its parameters and what it gives."""

    def calls(self) -> Dict[str, inspect.Signature]:
        return {name: inspect.signature(call) for name, call in vars(Client).items() if inspect.isfunction(call) and not name.startswith("_")}

    def test_each_parameter_has_a_name_and_a_type(self) -> None:
        calls = self.calls()
        self.assertGreater(len(calls), 20)
        for name, signature in calls.items():
            for parameter in list(signature.parameters.values())[1:]:
                with self.subTest(call=name, parameter=parameter.name):
                    self.assertNotIn(parameter.kind, (inspect.Parameter.VAR_KEYWORD, inspect.Parameter.VAR_POSITIONAL))
                    self.assertNotIn(parameter.annotation, (inspect.Parameter.empty, "object", "Any"))
            self.assertNotIn(signature.return_annotation, (inspect.Signature.empty, "object", "'object'", "Any"))

    def test_an_option_that_is_none(self) -> None:
        """It is refused before anything is asked: there is no volume."""
        client = Client("unix:/nonexistent")
        put: Any = client.put_tree
        with self.assertRaises(TypeError):
            put("/nonexistent", "/x", recusive=True)

    def test_the_options_of_a_tree(self) -> None:
        """Those of `put_tree` are those of the command, but for what says which command it is; `split` is accepted, and does nothing."""
        wanted = set(ImportOptions._fields) - {"recursive", "skip_same", "delete_last"} | {"split"}
        self.assertEqual(set(self.calls()["put_tree"].parameters) - {"self", "local", "path", "told"}, wanted)


if __name__ == "__main__":
    unittest.main()
