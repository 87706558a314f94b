"""The client over the programs: a daemon's socket, and `udfburn apply` on an image."""

from __future__ import annotations

import os
import random
import re
import socket
import subprocess
import unittest
from typing import Dict, List

from udfburn import Client
from udfburn.base import errors as e
from udfburn import protocol as p
from udfburn.image.blocks import space_of
from udfburn.protocol.units import Moment
from udfburn.wire.operations import Operation
from udfburn.trees.tree import ImportOptions, put_all

from .model import Volume
from .programs import PATIENCE, UDFBURN, WithPrograms
from .with_files import store_in_parts
from .test_protocol import conversation, random_name, section, unhex

ALL_NAMES = ["a", "A", " ", "a b", "...", "-r", "é", "é" * 254, "x" * 254, "Ā" * 127, "\u0001\u001f", "\uffff", "~", "名前", "\u202eabc", "c:\\d", "e\u0301", "\n"]


class Conversation(WithPrograms):
    """The document's own frames."""

    def frames(self) -> "tuple[bytes, bytes]":
        text = section("An example")
        import re

        create = b"".join(unhex("".join(re.findall(r"`([^`]*)`", line.split("|")[1]))) for line in text.split("\n") if line.startswith("| `"))
        sent = create + b"".join(row[1] for row in conversation())
        return sent, unhex("06 00 00 00 00 00 01 00 00 00") + b"".join(row[2] for row in conversation())

    def test_over_apply(self) -> None:
        sent, got = self.frames()
        self.assertEqual(subprocess.run([UDFBURN, "apply", "mem:3000"], input=sent, capture_output=True, check=True).stdout, got)

    def test_over_the_socket(self) -> None:
        self.serve()
        sent, got = self.frames()
        with socket.socket(socket.AF_UNIX) as stream:
            stream.connect(self.path)
            stream.sendall(sent)
            stream.shutdown(socket.SHUT_WR)
            answer = b"".join(iter(lambda: stream.recv(1 << 16), b""))
        self.assertEqual(answer, got)


class Random(WithPrograms):
    """Operations as a die falls, beside the plain volume."""

    def test_beside_the_model(self) -> None:
        for way in ("socket", "image"):
            chance, volume = random.Random(len(way)), Volume()
            if way == "socket":
                self.serve()
                client = self.client()
            else:
                image = os.path.join(self.room, "other.img")
                self.format(60000, image)
                client = self.on_image(os.path.join(self.room, "other.sqlite"), image)
            operations = [random_operation(chance) for _ in range(400)]
            outcomes = list(client.run(operations))
            self.assertEqual(len(outcomes), 400)
            for number, outcome in enumerate(outcomes, 1):
                expected = volume.answer(outcome.operation.request(1, number))
                self.assertEqual(p.Committed(outcome.code, outcome.commit), expected, (number, outcome.operation))
            self.check_tree(client, volume)
            codes = {outcome.code for outcome in outcomes}
            self.assertTrue(codes >= {p.Code.DONE, p.Code.NO_PARENT, p.Code.NOT_FOUND, p.Code.EXISTS, p.Code.NOT_EMPTY, p.Code.INTO_ITSELF, p.Code.ROOT}, codes)

    def check_tree(self, client: Client, volume: Volume) -> None:
        with client.held():
            for path in volume.nodes:
                self.assertEqual(client.stat(path), volume.query(p.Stat(path)))
                if volume.kind(path) is p.NodeKind.FILE:
                    self.assertEqual(client.get(path), volume.files()[path])
                else:
                    self.assertEqual(p.Names(client.list(path)), volume.query(p.List(path)))


def random_operation(chance: random.Random) -> Operation:
    def path() -> p.Path:
        return tuple(chance.choice("abc") for _ in range(chance.choice((0, 1, 1, 1, 2, 2, 3))))

    kind = chance.choice((p.Create, p.Create, p.Replace, p.MakeDir, p.MakeDir, p.Rename, p.Remove))
    moment = chance.randrange(p.limits.MOMENT)
    data = chance.randbytes(chance.choice((0, 1, 1872, 1873, 2048, 9000)))
    return Operation(kind, path(), Moment(moment), data if kind in (p.Create, p.Replace) else b"", path() if kind is p.Rename else ())


class Folders(WithPrograms):
    """Imports."""

    def thousand(self) -> str:
        """A folder of 1,000 files whose names and sizes are of all kinds."""
        chance, local = random.Random(1000), os.path.join(self.room, "source")
        names: Dict[str, List[str]] = {}
        for folder in ("", "d", "d/é", "d/é/深い", "empty/also empty"):
            os.makedirs(os.path.join(local, folder), exist_ok=True)
        for folder in ("", "d", "d/é", "d/é/深い"):
            taken = ["empty", "d"] if not folder else ["é", "深い"]
            found = [name for name in ALL_NAMES if name not in taken and len(os.fsencode(name)) <= 255]
            while len(found) < 250:
                name = random_name(chance)
                if name not in found + taken and len(os.fsencode(name)) <= 255:
                    found.append(name)
            names[folder] = found
        sizes = [0, 1, 1872, 1873, 2048, 2049, 4096, 70000]
        for folder, found in names.items():
            for name in found:
                with open(os.path.join(local, folder, name), "wb") as file:
                    file.write(chance.randbytes(chance.choice(sizes)))
        with open(os.path.join(local, "d", names["d"][0]), "wb") as file:
            file.write(chance.randbytes(p.limits.FILE))
        return local

    def test_a_thousand_files(self) -> None:
        local = self.thousand()
        self.serve()
        self.run_command("put", "-r", local, "/x")
        self.assertIn("1,000 files", self.run_command("verify", local, "/x", "--exact"))
        self.assertEqual(self.udfburn("check", self.image), b"sound %d\n" % self.commits())
        self.assertEqual(self.commits(), 1000 + 6)
        before = os.path.getsize(self.image)
        self.run_command("put", "-r", "--skip-same", local, "/x")
        self.assertEqual(os.path.getsize(self.image), before, "nothing was written")
        self.run_command("get", "-r", "/x", os.path.join(self.room, "back"))
        self.assertEqual(subprocess.run(["diff", "-r", local, os.path.join(self.room, "back")], check=False).returncode, 0)
        # Whatever is reported to differ, differs.
        with open(os.path.join(local, "a"), "ab") as file:
            file.write(b"x")
        os.unlink(os.path.join(local, "A"))
        with open(os.path.join(local, "new"), "wb"):
            pass
        told = self.run_command("verify", local, "/x", "--exact", status=1)
        for line in ("/x/a: has other bytes there", "/x/A: is only on the volume", "/x/new: is not there", "3 differences"):
            self.assertIn(line, told)

    def test_the_blocks_are_reckoned_exactly(self) -> None:
        local = self.thousand()
        client = self.on_image()
        summary = put_all(client, [(local, ("x",))], ImportOptions(recursive=True))
        self.assertEqual(os.path.getsize(self.image) // 2048, 262 + (summary.blocks or 0))
        again = put_all(client, [(local, ("x",))], ImportOptions(recursive=True, rewrite=True))
        self.assertEqual(again.files, summary.files)
        self.assertEqual(os.path.getsize(self.image) // 2048, 262 + (summary.blocks or 0) + (again.blocks or 0))

    def test_parts(self) -> None:
        """A file as earlier versions stored it: read as one, left alone, and replaced by one."""
        self.serve()
        big = random.Random(3).randbytes(2 * p.limits.FILE + 5)
        local = self.write("source/big", big)
        folder = os.path.dirname(local)
        os.truncate(self.write("larger", b""), p.limits.GREATEST_FILE + 1)
        self.assertIn("at most 921698304", self.run_command("put", os.path.join(self.room, "larger"), "/x", status=1))
        with self.client() as client:
            client.makedirs("/x")
            store_in_parts(client, ("x", "big"), big)
        client = self.client()
        self.assertIn("1 were there", self.run_command("put", "-r", "--split", folder, "/x"))
        self.assertEqual([name.name for name in client.list("/x")], ["big.000", "big.001", "big.002"])
        self.assertEqual(b"".join(client.get(f"/x/big.{index:03}") for index in range(3)), big)
        self.run_command("verify", "--split", folder, "/x", "--exact")
        self.run_command("get", "--split", "/x/big", os.path.join(self.room, "back"))
        self.assertEqual(self.read("back"), big)
        self.run_command("get", "-r", "--split", "/x", os.path.join(self.room, "all"))
        self.assertEqual(self.read("all/big"), big)
        # Another file of the same name leaves no part of it.
        self.write("source/big", big[: p.limits.FILE + 1])
        self.run_command("put", "-r", "--split", "--verify", "--delete-source", folder, "/x")
        self.assertEqual([name.name for name in client.list("/x")], ["big"])
        self.assertFalse(os.path.exists(local))

    def test_as_of(self) -> None:
        client = self.on_image()
        for text in (b"first", b"second", b"third"):
            client.put("/a", text)
        client.remove("/a")
        client.close()
        where = ["--image", self.image]
        for commit, word in ((1, "first"), (2, "second"), (3, "third")):
            self.assertEqual(self.run_command("get", "--as-of", str(commit), "/a", "-", where=where), word)
            self.assertEqual(self.run_command("ls", "--as-of", str(commit), where=where), "f a\n")
        self.assertEqual(self.run_command("ls", "--as-of", "0", where=where), "")
        self.run_command("get", "/a", "-", where=where, status=1)
        self.write("source/a", b"second")
        self.run_command("verify", os.path.join(self.room, "source"), "/", "--as-of", "2", where=where)
        self.run_command("verify", os.path.join(self.room, "source"), "/", "--as-of", "3", where=where, status=1)
        self.run_command("ls", "--as-of", "9", where=where, status=2)
        self.assertEqual(sorted(os.listdir(self.room)), ["disc.img", "ledger.sqlite", "ledger.sqlite.lock", "source"])

    def test_an_image_that_cannot_be_written_is_read(self) -> None:
        self.serve()
        self.client().put("/a", b"hello")
        where = ["--image", self.image]
        self.assertEqual(self.run_command("get", "/a", "-", where=where), "hello")
        self.assertIn("f         5", self.run_command("ls", "-l", where=where))


class Paths(WithPrograms):
    """Paths of the system that are not UTF-8: of a socket, a ledger, a local file, and of an image."""

    def setUp(self) -> None:
        super().setUp()
        self.odd = os.path.join(self.room, os.fsdecode(b"r\xff\xc3"))
        os.mkdir(self.odd)
        # The programs take no such words, and get the folder by a link.
        self.link = os.path.join(self.room, "link")
        os.symlink(self.odd, self.link)
        self.local = os.path.join(self.odd, os.fsdecode(b"local\xe9"))
        with open(self.local, "wb") as file:
            file.write(b"hello")
        self.ledger = os.path.join(self.odd, os.fsdecode(b"\xe9.sqlite"))

    def test_a_socket(self) -> None:
        self.path = os.path.join(self.link, "socket")
        daemon = self.serve()
        self.path = os.path.join(self.odd, "socket")
        for count in range(2):
            self.assertIn("stored 1 file", self.run_command("put", self.local, f"/a{count}"))
        self.assertEqual(self.run_command("get", "/a1", "-"), "hello")
        self.assertIn("got /a1", self.run_command("get", "/a1", os.path.join(self.odd, os.fsdecode(b"back\xff"))))
        self.assertIn("all are there", self.run_command("verify", self.local, "/a1"))
        # The numbers of this way are found again, whatever its bytes are.
        with self.client() as client:
            self.assertEqual(client.resume(), [])
            self.assertEqual([volume.latest for volume in client.session().ledger.volumes()], [2])
        daemon.kill()
        os.unlink(self.path)
        self.assertIn(r"r\xff\xc3/socket: No such file", self.run_command("ls", "--wait", "0", status=1))

    def test_an_image(self) -> None:
        os.rename(self.image, os.path.join(self.odd, "disc.img"))
        self.image = os.path.join(self.odd, "disc.img")
        drawn = os.path.join(self.odd, "map.svg")
        where = ["--image", self.image]
        for words in (["ls"], ["ls", "--as-of", "0"], ["put", self.local, "/a"], ["put", self.local, "/a", "--socket", self.path]):
            self.assertRegex(self.run_command(*words, where=where, status=2), r"r\\xff\\xc3/disc.img: is not UTF-8.* link")
        self.assertRegex(self.run_command("map", self.image, drawn, where=[], status=2), "is not UTF-8")
        self.image = os.path.join(self.link, "disc.img")
        where = ["--image", self.image]
        for count in range(2):
            self.assertIn("stored 1 file", self.run_command("put", self.local, f"/a{count}", where=where))
        self.assertEqual(self.run_command("ls", "--as-of", "1", where=where), "f a0\n")
        self.assertIn("drew", self.run_command("map", self.image, drawn, where=[]))
        self.assertEqual(self.commits(), 2)


class Limits(WithPrograms):
    """Full volumes, and every refusal."""

    def test_full(self) -> None:
        for way in ("socket", "image"):
            image = os.path.join(self.room, f"{way}.img")
            self.format(700, image)
            self.image = image
            ledger = os.path.join(self.room, f"{way}.sqlite")
            if way == "socket":
                self.serve()
                client = self.client(ledger)
            else:
                client = self.on_image(ledger, image)
            done = []
            with self.assertRaises(e.Full):
                for outcome in client.run(Operation(p.Create, (str(index),), Moment(0), bytes(9000)) for index in range(200)):
                    done.append(outcome.operation.path)
            self.assertEqual([(name.name,) for name in client.list("/")], done)
            self.assertGreater(len(done), 20)
            # What is smaller still fits, under the number that was not used.
            client.replace("/0", b"small")
            self.assertEqual(self.commits(), len(done) + 1)
            client.close()

    def test_preflight_tells_where_the_last_one_does_not_fit(self) -> None:
        """The computation refuses exactly what the program refuses."""
        for count in range(30, 60):
            image = os.path.join(self.room, "tight.img")
            if os.path.exists(image):
                os.unlink(image)
            self.format(700, image)
            client = self.on_image(os.path.join(self.room, f"tight{count}.sqlite"), image)
            folder = os.path.join(self.room, f"tight{count}")
            for index in range(count):
                self.write(f"tight{count}/{index:03}", bytes(9000))
            try:
                put_all(client, [(folder, ())], ImportOptions(recursive=True))
            except e.DoesNotFit as error:
                self.assertIn("blocks", str(error))
                self.assertEqual(os.path.getsize(image), 262 * 2048, "nothing was sent")
                with self.assertRaises(e.Full):
                    for outcome in client.run(Operation(p.Create, (f"{index:03}",), Moment(0), bytes(9000)) for index in range(count)):
                        self.assertIs(outcome.code, p.Code.DONE)
                client.close()
                return
            client.close()
        self.fail("the volume was never full")

    def test_how_many_blocks_must_be_free(self) -> None:
        """A volume with as many takes the import, and one with a block less does not."""
        local = self.write("one", bytes(300_000))

        def put(capacity: int) -> str:
            image = os.path.join(self.room, f"{capacity}.img")
            self.format(capacity, image)
            with self.on_image(os.path.join(self.room, f"{capacity}.sqlite"), image) as client:
                try:
                    put_all(client, [(local, ("one",))], ImportOptions())
                except e.DoesNotFit as error:
                    return str(error)
            return ""

        found = re.search("takes 152 blocks, and ([0-9]+) must be free while it is written; 250 are free", put(512))
        assert found
        self.assertIn(f"{found.group(1)} must be free", put(262 + int(found.group(1)) - 1))
        self.assertEqual(put(262 + int(found.group(1))), "")

    def test_the_blocks_behind_a_socket(self) -> None:
        """Over a socket the image is looked at where it is named, while the daemon has it."""
        self.image = os.path.join(self.room, "small.img")
        self.format(600)
        self.serve()
        for index in range(100):
            self.write(f"many/{index}", bytes(9000))
        folder = os.path.join(self.room, "many")
        words = ["--socket", self.path, "--image", self.image]
        self.assertRegex(self.run_command("put", "-r", folder, "/x", where=words, status=1), "takes .* blocks, .* 338 are free")
        self.assertEqual(self.commits(), 0)
        for index in range(10, 100):
            os.unlink(os.path.join(folder, str(index)))
        self.assertIn("of 338 blocks", self.run_command("put", "-r", folder, "/x", where=words))

    def test_a_socket_alone_tells_of_no_blocks(self) -> None:
        """No answer says how many are left: what fits is stored, and the same line goes on once the rest fits."""
        self.image = os.path.join(self.room, "small.img")
        self.format(600)
        self.serve()
        for index in range(100):
            self.write(f"many/{index:02}", bytes(9000))
        folder = os.path.join(self.room, "many")
        told = self.run_command("put", "-r", "--skip-same", folder, "/x", status=1)
        stored = self.run_command("ls", "/x").split("\n")[:-1]
        self.assertIn(f"no room for /x/{len(stored):02}", told)
        self.assertEqual(stored, [f"f {index:02}" for index in range(len(stored))])
        self.assertEqual(self.commits(), 1 + len(stored))
        for index in range(len(stored) + 1, 100):
            os.unlink(os.path.join(folder, f"{index:02}"))
        self.write(f"many/{len(stored):02}", b"smaller")
        self.assertIn(f"stored 1 file, 7 B, {len(stored)} were there", self.run_command("put", "-r", "--skip-same", folder, "/x"))
        self.assertIn("all are there", self.run_command("verify", folder, "/x"))

    def test_every_refusal(self) -> None:
        self.serve()
        client = self.client()
        client.mkdir("/d")
        client.create("/d/f", b"")
        client.makedirs("/d" + "/e" * 15)
        list(client.run([Operation(p.MakeDir, ("full",), Moment(0))] + [Operation(p.Create, ("full", str(index)), Moment(0)) for index in range(512)]))
        cases = [
            (e.NoParent, "mkdir", ("/no/f",)), (e.NotFound, "remove", ("/no",)), (e.NotFound, "replace", ("/no", b"")), (e.Exists, "mkdir", ("/d",)),
            (e.IsDirectory, "replace", ("/d", b"")), (e.NotEmpty, "remove", ("/d",)), (e.IntoItself, "rename", ("/d", "/d/x")), (e.IsRoot, "remove", ("/",)),
            (e.TooDeep, "mkdir", ("/d" + "/e" * 16,)), (e.DirectoryFull, "mkdir", ("/full/x",)), (e.NotFound, "get", ("/no",)), (e.IsDirectory, "get", ("/d",)),
            (e.NotDirectory, "list", ("/d/f",)),
        ]
        for error, name, words in cases:
            with self.assertRaises(error):
                getattr(client, name)(*words)

    def test_too_many(self) -> None:
        client = self.on_image()
        operations = []
        for folder in range(9):
            operations.append(Operation(p.MakeDir, (str(folder),), Moment(0)))
            operations += [Operation(p.Create, (str(folder), str(index)), Moment(0)) for index in range(454 if folder < 8 else 454)]
        outcomes = list(client.run(operations[:4095]))
        self.assertEqual({outcome.code for outcome in outcomes}, {p.Code.DONE})
        with self.assertRaises(e.TooMany):
            client.mkdir("/one-more")
        source = self.write("source/new", b"")
        with self.assertRaisesRegex(e.DoesNotFit, "4097"):
            put_all(client, [(os.path.dirname(source), ("0",))], ImportOptions(recursive=True))

    def test_clients_full(self) -> None:
        client = self.on_image()
        for number in range(64):
            with Client(f"image:{self.image}", number + 1, os.path.join(self.room, f"{number}.sqlite"), UDFBURN) as one:
                one.put("/a", b"x")
        with self.assertRaises(e.ClientsFull):
            client.put("/a", b"x")
        self.assertEqual(self.commits(), 64)

    def test_an_image_that_is_none(self) -> None:
        empty = self.write("empty.img", b"")
        with self.assertRaises(e.Damaged):
            self.on_image(image=empty).create("/a", b"")
        with self.assertRaises(e.ConnectionFailed):
            self.on_image(os.path.join(self.room, "b.sqlite"), os.path.join(self.room, "missing.img")).create("/a", b"")
        with self.assertRaises(e.ConnectionFailed):
            self.client(os.path.join(self.room, "c.sqlite"), patience=0.2).create("/a", b"")

    def test_space(self) -> None:
        client = self.on_image()
        client.makedirs("/a/b")
        client.remove("/a/b")
        space = space_of(self.image, UDFBURN, 5)
        assert space
        self.assertEqual((space.capacity, space.nodes, space.entries, len(space.clients)), (60000, 2, 4, 2))
        self.assertEqual(space.next, os.path.getsize(self.image) // 2048)


class Two(WithPrograms):
    """Two clients at once."""

    def test_two_imports(self) -> None:
        for way in ("socket", "image"):
            if way == "socket":
                self.serve()
                where = ["--socket", self.path]
            else:
                self.image = os.path.join(self.room, "two.img")
                self.format(60000)
                where = ["--image", self.image]
            processes = []
            for name in "ab":
                for index in range(200):
                    self.write(f"{name}/{index}", f"{name}{index}".encode() * 100)
                environment = {**self.environment(), "UDFBURN_LEDGER": os.path.join(self.room, f"{way}-{name}.sqlite")}
                words = self.words("put", "-r", os.path.join(self.room, name), f"/{name}", "--wait", str(PATIENCE), where=where)
                processes.append(subprocess.Popen(words, env=environment, stdout=subprocess.DEVNULL))
            self.assertEqual([process.wait(2 * PATIENCE) for process in processes], [0, 0])
            for name in "ab":
                self.run_command("verify", os.path.join(self.room, name), f"/{name}", "--exact", where=where)
            self.assertEqual(self.commits(), 402)

    def test_one_ledger(self) -> None:
        """Two processes that share a ledger go one after the other."""
        self.serve()
        for name in "ab":
            for index in range(100):
                self.write(f"{name}/{index}", b"x")
        processes = [subprocess.Popen(self.words("put", "-r", os.path.join(self.room, name), f"/{name}", "--wait", str(PATIENCE)), env=self.environment(), stdout=subprocess.DEVNULL) for name in "ab"]
        self.assertEqual([process.wait(2 * PATIENCE) for process in processes], [0, 0])
        self.assertEqual(self.commits(), 202)
        client = self.client()
        client.put("/c", b"")
        self.assertIn("another process has this ledger", self.run_command("put", self.write("c", b""), "/c", "--wait", "0", status=1))


if __name__ == "__main__":
    unittest.main()
