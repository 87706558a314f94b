"""Files in parts, as earlier versions stored them: beside others, and in folders of parts where there are more than 400."""

from __future__ import annotations

import os
import random
import subprocess
import unittest
from contextlib import ExitStack, redirect_stderr, redirect_stdout
from io import StringIO
from mmap import ACCESS_READ, mmap
from typing import Dict, List
from unittest import mock

from udfburn import Client
from udfburn.base import older_parts
from udfburn.commands import cli
from udfburn.trees import fetch, tree, walk
from udfburn import protocol as p

from .model import Volume
from .programs import WithPrograms
from .with_files import Local, store_in_parts

MEBIBYTE = p.limits.FILE


class Paths(unittest.TestCase):
    """Where parts are."""

    def test_up_to_400_parts_stand_beside_others(self) -> None:
        paths = older_parts.stored_paths(("a", "b"), 400 * MEBIBYTE)
        self.assertEqual((len(paths), paths[0], paths[399]), (400, ("a", "b.000"), ("a", "b.399")))
        self.assertEqual(older_parts.part_folders(("a", "b"), 400 * MEBIBYTE), [])

    def test_more_stand_in_folders_of_400(self) -> None:
        paths = older_parts.stored_paths(("a", "b"), 800 * MEBIBYTE + 1)
        self.assertEqual(len(paths), 801)
        for index, path in ((0, "00/000"), (399, "00/399"), (400, "01/000"), (799, "01/399"), (800, "02/000")):
            self.assertEqual(paths[index], ("a", "b.parts", *path.split("/")))
        self.assertEqual(older_parts.part_folders(("a", "b"), 800 * MEBIBYTE + 1), [("a", "b.parts"), *[("a", "b.parts", f"0{index}") for index in range(3)]])
        self.assertEqual(older_parts.stored_paths(("b",), 400 * MEBIBYTE + 1)[400], ("b.parts", "01", "000"))
        # The names of all parts in order are those of a sorted list, so that `cat NAME.parts/*/*` joins them.
        self.assertEqual(paths, sorted(paths))

    def test_joined_folders(self) -> None:
        parts: List[p.Path] = [("b.parts", f"{index // 400:02}", f"{index % 400:03}") for index in range(401)]
        names: Dict[p.Path, List[str]] = {("b.parts",): ["00", "01"], ("b.parts", "00"): [f"{i:03}" for i in range(400)], ("b.parts", "01"): ["000"]}
        sizes = dict.fromkeys(parts, MEBIBYTE)
        self.assertEqual(len(older_parts.joined_folder(("b.parts",), names, sizes)), 401)
        sizes[("b.parts", "01", "000")] = 5
        self.assertEqual(len(older_parts.joined_folder(("b.parts",), names, sizes)), 401)
        self.assertEqual(older_parts.joined_folder(("b.parts",), names, {**sizes, parts[200]: 5}), [])
        self.assertEqual(older_parts.joined_folder(("b.parts",), names, dict.fromkeys(parts[:400], MEBIBYTE)), [])
        # One with fewer parts is not all there: it would be beside others.
        fewer = {("b.parts",): ["00"], ("b.parts", "00"): names[("b.parts", "00")]}
        self.assertEqual(older_parts.joined_folder(("b.parts",), fewer, dict.fromkeys(parts[:400], MEBIBYTE)), [])
        for path, more in ((("b.parts",), ["00", "01", "note"]), (("b.parts", "01"), ["000", "002"])):
            self.assertEqual(older_parts.joined_folder(("b.parts",), {**names, path: more}, sizes), [])


class Folders(Local):
    """The same by small numbers: parts of a mebibyte, of which up to two are beside others, and two in each folder."""

    def setUp(self) -> None:
        super().setUp()
        stack = ExitStack()
        self.addCleanup(stack.close)
        for name in ("FLAT", "FOLDER_PARTS"):
            stack.enter_context(mock.patch.object(older_parts, name, 2))

    def put(self, **options: object) -> tree.ImportSummary:
        options.setdefault("split", True)
        return super().put(**options)

    def files(self) -> List[str]:
        return sorted("/".join(path[1:]) for path in self.volume.nodes if len(path) > 1)

    def of(self, count: int) -> List[str]:
        """What the volume has of a file in parts of so many mebibytes, and a byte."""
        if count == 1:
            return ["big.000", "big.001"]
        return sorted(["big.parts", *[f"big.parts/{i:02}" for i in range(count // 2 + 1)], *[f"big.parts/{i // 2:02}/{i % 2:03}" for i in range(count + 1)]])

    def data(self, count: int, seed: int = 0) -> bytes:
        return random.Random(seed).randbytes(count * MEBIBYTE + 1)

    def begin(self, name: str) -> None:
        """A new volume, and a ledger that knows none."""
        self.server.volume = Volume()
        self.ledger = os.path.join(self.room, f"{name}.sqlite")

    def test_replaced(self) -> None:
        """Whatever a file in parts becomes, it is one then, nothing of its parts is left, and it is read as it is."""
        for before in (1, 2, 5):
            for after in (0, 1, 2, 3, 5):
                self.begin(f"{before}-{after}")
                self.write("big", self.data(before))
                self.put_older()
                self.assertEqual(self.files(), self.of(before))
                self.write("big", self.data(after, 1))
                self.assertEqual(self.put(verify=True).verified, 1)
                self.assertEqual(self.files(), ["big"], (before, after))
                back = os.path.join(self.room, f"back{before}-{after}")
                fetch.get_tree(self.client(), ("x",), back, True)
                with open(os.path.join(back, "big"), "rb") as file:
                    self.assertEqual(file.read(), self.data(after, 1))
                self.assertEqual(os.listdir(back), ["big"])
                result = fetch.verify_tree(self.client(), self.folder, ("x",), True)
                self.assertEqual((result.differences, result.extra, result.files), ([], [], 1))

    def test_read_as_one(self) -> None:
        for count in (1, 2, 5):
            self.begin(f"read{count}")
            self.write("big", self.data(count))
            self.put_older()
            back = os.path.join(self.room, f"back{count}")
            fetch.get_tree(self.client(), ("x",), back, True)
            with open(os.path.join(back, "big"), "rb") as file:
                self.assertEqual(file.read(), self.data(count))
            result = fetch.verify_tree(self.client(), self.folder, ("x",), True)
            self.assertEqual((result.differences, result.extra, result.files), ([], [], 1))
            self.write("big", self.data(count, 1))
            self.assertEqual(fetch.verify_tree(self.client(), self.folder, ("x",), True).differences, [("/x/big", "has other bytes there")])

    def test_what_is_the_same_is_left_alone(self) -> None:
        """A medium has no room for bytes that it has already. With --rewrite it becomes one."""
        for count in (1, 5):
            self.begin(f"same{count}")
            self.write("big", self.data(count))
            self.put_older()
            commits = self.volume.commits
            self.assertEqual(self.put().same, 1)
            with self.client() as client:
                self.assertEqual(tree.put_all(client, [(os.path.join(self.folder, "big"), ("x", "big"))], tree.ImportOptions()).same, 1)
            self.assertEqual((self.volume.commits, self.files()), (commits, self.of(count)))
            self.put(rewrite=True)
            self.assertEqual(self.files(), ["big"])
            self.write("big", self.data(count, 1))
            self.assertEqual(self.put(delete_source=True).deleted, 1)

    def test_a_file_alone(self) -> None:
        """The same where no folder is stored, and only what is near its path is looked at."""
        for count, after in ((1, 0), (5, 0), (5, 1)):
            self.begin(f"alone{count}-{after}")
            self.write("big", self.data(count))
            self.put_older()
            local = self.write("big", self.data(after, 1))
            with self.client() as client:
                tree.put_all(client, [(local, ("x", "big"))], tree.ImportOptions(split=True))
            self.assertEqual(self.files(), ["big"])

    def test_a_removal_that_was_cut_short(self) -> None:
        """The file is whole by then. What is left of its parts stays, since nobody can know that it is none of a user's files, and is named."""
        for count in (1, 4):
            for left in range(len(self.of(count)) + 1):
                self.begin(f"cut{count}-{left}")
                self.write("big", self.data(count))
                self.put_older()
                self.write("big", b"small")

                def some(client: Client, paths: List[p.Path], told: walk.StepTold, left: int = left) -> None:
                    walk.remove_paths(client, paths[:left], told)
                    raise KeyboardInterrupt

                with mock.patch.object(tree, "remove_paths", some), self.assertRaises(KeyboardInterrupt):
                    self.put()
                self.assertEqual(self.volume.files()["x", "big"], b"small")
                told, first = self.put().skipped, self.of(count)[0] if count == 1 else "big.parts/00/000"
                self.assertEqual([line.split(":")[0] for line in told], [f"/x/{first}"] if first in self.files() else [])

    def test_folders_of_others(self) -> None:
        """A folder that has other names than parts is not removed, and a small file in one is nobody's part."""
        for names in (["big.parts/00/000", "big.parts/note"], ["big.parts/00/000", "big.parts/1/000"], ["big.parts/00/000"]):
            self.begin(f"others{len(names)}{names[-1][-5:-4]}")
            for name in names:
                self.write(name, b"own")
            self.put(delete_source=True)
            for folder in ("big.parts/00", "big.parts/1", "big.parts"):
                if os.path.isdir(os.path.join(self.folder, folder)):
                    os.rmdir(os.path.join(self.folder, folder))
            before = self.files()
            self.write("big", b"small")
            self.put()
            self.assertEqual(self.files(), sorted(before + ["big"]))
            os.unlink(os.path.join(self.folder, "big"))

    def test_files_that_are_stored_together(self) -> None:
        """None is removed for its name, and each is there when its source is deleted."""
        big = self.data(1)
        wanted = {"log": b"log", "log.000": b"0", "log.001": b"1", "big": big, "big.000": big[:-1], "big.001": big[-1:]}
        for name, data in wanted.items():
            if name != "big":
                self.write(name, data)
        self.put()
        self.write("big", big)
        choices: List[Dict[str, bool]] = [{}, {"rewrite": True}, {"delete_source": True}]
        for options in choices:
            self.assertEqual(self.put(**options).failures, [])
            self.assertEqual({path[-1]: data for path, data in self.volume.files().items()}, wanted)
        self.assertEqual(os.listdir(self.folder), [])

    def test_what_is_not_read_as_one_file_stays(self) -> None:
        """Files that have such names, but are no parts."""
        for name in ("log.000", "log.001", "log.002"):
            self.write(name, name.encode())
        self.put(delete_source=True)
        self.write("log", b"log")
        self.assertEqual(self.put(delete_source=True).skipped, [])
        self.assertEqual(self.files(), ["log", "log.000", "log.001", "log.002"])
        # The parts before it are replaced, and it is none of them.
        self.write("big", self.data(1))
        self.put_older()
        with self.client() as client:
            client.create("/x/big.002", b"own")
            client.makedirs("/x/dir.000")
        self.write("big", b"small")
        self.write("dir", b"small")
        self.put()
        self.assertEqual(self.files(), ["big", "big.002", "dir", "dir.000", "log", "log.000", "log.001", "log.002"])

    def test_a_folder_that_does_not_make_a_whole_file_is_a_folder(self) -> None:
        """Nothing is hidden that is no part."""
        self.write("big", self.data(3))
        self.put_older()
        with self.client() as client:
            client.put("/x/big.parts/01/005", b"more")
            back = os.path.join(self.room, "back")
            self.assertEqual(fetch.get_tree(client, ("x",), back, True), 5)
        self.assertEqual(os.listdir(back), ["big.parts"])

    def test_what_is_read_along_with_the_parts_is_compared(self) -> None:
        """A file whose parts are there is not the same where more parts are read in its place."""
        self.begin("along")
        self.write("big", self.data(2)[: 2 * MEBIBYTE])
        self.put_older()
        self.assertEqual(fetch.verify_tree(self.client(), self.folder, ("x",), True).differences, [])
        with self.client() as client:
            client.put("/x/big.002", b"more")
        wanted = [("/x/big", "is there, but with --split /x/big.002 is read as a part of it")]
        self.assertEqual(fetch.verify_tree(self.client(), self.folder, ("x",), True).differences, wanted)

    def test_parts_that_are_not_read_as_one_file(self) -> None:
        """Where a directory has the file's name, or the folder of its parts has others: that is named, and the rest is compared."""
        for count, path in ((2, "/x/big"), (3, "/x/big.parts/note")):
            self.begin(f"apart{count}")
            self.write("big", self.data(count)[: count * MEBIBYTE])
            self.write("other", b"other")
            self.put_older()
            with self.client() as client:
                client.put("/x/other", b"other")
                client.mkdir(path)
            result = fetch.verify_tree(self.client(), self.folder, ("x",), True)
            self.assertEqual(result.differences, [("/x/big", "is there in parts, but with --split they are not read as one file")])
            self.assertEqual(result.files, 2)

    def test_removed_by_its_own_name(self) -> None:
        """Wherever its parts are; and nothing else goes."""
        self.write("other", b"other")
        self.put()
        for count in (1, 5):
            self.write("big", self.data(count))
            self.put_older()
            words = ["--socket", self.server.path, "--ledger", self.ledger]
            with redirect_stdout(StringIO()):
                self.assertEqual(cli.main(["rm", *words, "--split", "/x/big"]), 0)
            self.assertEqual(self.files(), ["other"])
            with redirect_stderr(StringIO()):
                self.assertEqual(cli.main(["rm", *words, "--split", "/x/big"]), 1)

    def test_a_dry_run(self) -> None:
        self.write("big", self.data(1))
        self.put_older()
        self.write("big", self.data(3))
        steps: List[str] = []
        with self.client() as client:
            options = tree.ImportOptions(recursive=True, split=True, dry_run=True)
            tree.put_all(client, [(self.folder, ("x",))], options, lambda what, path, size, _: steps.append(f"{what} {p.show(path)} {size}"))
        self.assertEqual(steps, [f"would store /x/big {3 * MEBIBYTE + 1}", "would remove /x/big.001 0", "would remove /x/big.000 0"])

    def test_parts_that_nobody_calls_parts(self) -> None:
        """They may be files of a user's own, as `split -b 1M -d -a 3` makes them: they stay beside the whole file, and are named."""
        for count in (1, 4):
            self.begin(f"own{count}")
            self.write("big", self.data(count))
            self.put_older()
            before = self.files()
            self.write("big", b"small")
            told = self.put(split=False).skipped
            first = before[0] if count == 1 else "big.parts/00/000"
            self.assertEqual([line.split(":")[0] for line in told], [f"/x/{first}"])
            self.assertEqual(self.files(), sorted(["big", *before]))
            self.assertEqual(self.volume.files()["x", "big"], b"small")

    def test_the_command_with_the_word(self) -> None:
        """One file takes the place of the parts."""
        self.write("big", self.data(1))
        self.put_older()
        self.write("big", b"small")
        with redirect_stdout(StringIO()), redirect_stderr(StringIO()):
            self.assertEqual(cli.main(["put", "-r", "--split", self.folder, "/x", "--socket", self.server.path, "--ledger", self.ledger]), 0)
        self.assertEqual(self.files(), ["big"])


class Reckoned(WithPrograms):
    def test_the_blocks_of_what_takes_the_place_of_parts(self) -> None:
        """They are computed exactly."""
        data = random.Random(7).randbytes(3 * MEBIBYTE + 5)
        client = self.on_image()
        store_in_parts(client, ("big",), data)
        for size in (MEBIBYTE + 5, 700):
            local = self.write("source/big", data[:size])
            before = os.path.getsize(self.image) // 2048
            summary = tree.put_all(client, [(os.path.dirname(local), ())], tree.ImportOptions(recursive=True, split=True))
            self.assertEqual(os.path.getsize(self.image) // 2048 - before, summary.blocks)
            self.assertEqual([name.name for name in client.list("/")], ["big"])


class Long(WithPrograms):
    """A file of more than 400 parts over the programs."""

    capacity = 450_000

    def test_a_file_of_more_than_400_mebibytes(self) -> None:
        local = self.write("source/big", b"")
        with open(local, "r+b") as file:
            file.truncate(401 * MEBIBYTE)
            for index in range(401):
                file.seek(index * MEBIBYTE + index)
                file.write(b"part %d" % index)
        folder = os.path.dirname(local)
        self.serve()
        with self.client() as client, open(local, "rb") as stored, mmap(stored.fileno(), 0, access=ACCESS_READ) as data:
            client.makedirs("/x")
            store_in_parts(client, ("x", "big"), data)
        names = self.run_command("ls", "-R", "/x").splitlines()
        self.assertEqual(names[:6], ["/x:", "d big.parts", "/x/big.parts:", "d 00", "d 01", "/x/big.parts/00:"])
        self.assertEqual(names[-2:], ["/x/big.parts/01:", "f 000"])
        self.assertIn("all are there", self.run_command("verify", "--split", "--exact", folder, "/x"))
        self.assertIn("1 were there", self.run_command("put", "-r", folder, "/x"))
        back = os.path.join(self.room, "back")
        self.run_command("get", "-r", "--split", "--quiet", "/x", back)
        self.assertEqual(subprocess.run(["cmp", local, os.path.join(back, "big")], check=False).returncode, 0)
        self.assertIn("all are there", self.run_command("verify", "--split", local, "/x/big"))
        self.run_command("rm", "/x/big", status=1)
        self.run_command("rm", "--split", "--quiet", "/x/big")
        self.assertEqual(self.client().list("/x"), ())


if __name__ == "__main__":
    unittest.main()
