"""The commands for a volume as a whole, over the programs."""

from __future__ import annotations

import json
import os
import subprocess
import threading
import time
import unittest
from typing import Any, Dict


from .programs import WithPrograms, run_client


class Volumes(WithPrograms):
    capacity = 3000

    def command(self, *words: str, status: int = 0) -> str:
        return self.run_command(*words, where=[], status=status)

    def state(self, *words: str) -> Dict[str, Any]:
        found = json.loads(self.command("status", "--json", *words))
        assert isinstance(found, dict)
        return found


class Format(Volumes):
    def test_the_moment_of_now(self) -> None:
        """Each volume has a moment of its own, and so an identity of its own."""
        moments = []
        for name in ("a.img", "b.img"):
            before = time.time_ns() // 1000
            self.command("format", os.path.join(self.room, name), "--capacity", "600")
            state = self.state(os.path.join(self.room, name))
            self.assertTrue(before <= state["moment"] <= time.time_ns() // 1000)
            self.assertEqual((state["label"], state["capacity"]), (name[0], 600))
            moments.append(state["moment"])
        self.assertNotEqual(*moments)

    def test_what_is_said(self) -> None:
        """The words become those of the program, byte by byte."""
        for moment, told in (("1700000000123456", "1700000000123456"), ("2023-11-14T22:13:20.123456Z", "1700000000123456"), ("1970-01-01", "0")):
            ours, theirs = os.path.join(self.room, f"ours{told}-{len(moment)}"), os.path.join(self.room, f"theirs{told}-{len(moment)}")
            self.command("format", ours, "--label", "É 1", "--moment", moment, "--capacity", "2MiB")
            self.udfburn("format", theirs, "É 1", told, "1024")
            self.assertEqual(self.read(ours), self.read(theirs))

    def test_the_capacity_of_a_disc(self) -> None:
        disc = os.path.join(self.room, "other.img")
        self.command("format", disc)
        self.assertEqual(self.state(disc)["capacity"], 359_844)

    def test_words_that_are_refused(self) -> None:
        new = os.path.join(self.room, "new.img")
        for words in (("--capacity", "511"), ("--capacity", "450001"), ("--capacity", "1TiB"), ("--capacity", ""), ("--moment", "then"),
                      ("--moment", "4102444800000000"), ("--moment", "1969-12-31T23:59:59Z"), ("--label", ""), ("--label", "x" * 31),
                      ("--label", "\U0001F600")):
            self.assertIn(words[0][2:], self.command("format", new, *words, status=2))
            self.assertFalse(os.path.exists(new))
        self.command("format", new, "--label", "x" * 30)

    def test_an_image_that_holds_something(self) -> None:
        """It stays as it is: also where it is no volume."""
        for image in (self.image, self.write("other", b"anything")):
            before = self.read(image)
            self.assertIn("holds something already, and stays as it is", self.command("format", image, status=1))
            self.assertEqual(self.read(image), before)
        self.assertIn("its folder is missing", self.command("format", os.path.join(self.room, "no/such.img"), status=1))


class Status(Volumes):
    def test_of_an_image(self) -> None:
        client = self.on_image()
        client.makedirs("/a/b")
        client.create("/a/f", b"x" * 5000)
        client.remove("/a/b")
        client.close()
        state = self.state(self.image)
        blocks = os.path.getsize(self.image) // 2048
        newest = self.udfburn("log", self.image).split(b"\n")[0].split()
        self.assertEqual(
            {name: state[name] for name in ("label", "moment", "commits", "capacity", "written", "left", "loose", "nodes", "files", "directories", "clients")},
            {"label": "TEST", "moment": 0, "commits": int(newest[0]), "capacity": 3000, "written": blocks, "left": 3000 - blocks,
             "loose": 0, "nodes": 3, "files": 1, "directories": 2, "clients": 1},
        )
        told = self.command("status", self.image)
        for line in ("label     TEST", "formatted 1970-01-01T00:00:00Z", "commits   4", f"{blocks:,} of 3,000 are written, {3000 - blocks:,} are left",
                     "3 of 4,096: 1 file, 2 directories; 4,093 left", "1 of 64: 63 left; Linux mounts up to 38: 37 left"):
            self.assertIn(line, told)

    def test_of_a_commit_that_was_cut(self) -> None:
        with open(self.image, "ab") as image:
            image.write(bytes(3 * 2048))
        self.assertEqual(self.state(self.image)["loose"], 3)
        self.assertIn("3 blocks at the end of no commit", self.command("status", self.image))

    def test_of_a_socket(self) -> None:
        self.serve()
        with self.client() as client:
            client.mkdir("/d")
            client.create("/d/f", b"hello")
            client.create("/g", b"")
        for words in ((self.path,), ("--socket", self.path), (f"unix:{self.path}",)):
            state = self.state(*words)
            self.assertEqual([state[name] for name in ("nodes", "files", "directories", "bytes")], [4, 2, 2, 5])
            self.assertEqual([state[name] for name in ("label", "moment", "commits", "capacity", "left", "clients")], [None] * 6)
        self.assertIn("label, moment of the format, commits, blocks, clients: no answer of a daemon has them", self.command("status", self.path))

    def test_what_is_no_volume(self) -> None:
        self.command("status", os.path.join(self.room, "missing"), status=1)
        self.command("status", self.write("text", b"text"), status=1)
        self.command("status", status=2)
        self.command("status", self.image, "--image", self.image, status=2)

    def test_a_named_pipe(self) -> None:
        """It is refused, and nobody is waited for who would write to it."""
        pipe = os.path.join(self.room, "pipe")
        os.mkfifo(pipe)
        writer = threading.Timer(20.0, lambda: os.close(os.open(pipe, os.O_WRONLY | os.O_NONBLOCK)))
        writer.start()
        self.addCleanup(writer.cancel)
        for words in (["status", pipe], ["log", pipe], ["check", pipe], ["check", "--data", pipe], ["salvage", "--list", pipe]):
            self.assertIn("Is a named pipe, and not an image", self.command(*words, status=1))

    def test_the_uuid_is_that_of_blkid(self) -> None:
        done = subprocess.run(["blkid", "-p", "-o", "value", "-s", "UUID", self.image], capture_output=True, text=True, check=False)
        if done.returncode == 0:
            self.assertEqual(self.state(self.image)["uuid"], done.stdout.strip())
        self.assertEqual(self.state(self.image)["uuid"], "0" * 16)


class Check(Volumes):
    def test_sound(self) -> None:
        self.on_image().put("/a", b"x")
        self.assertIn("every structure of 1 commit is as it must be", self.command("check", self.image))
        found = json.loads(self.command("check", "--json", self.image))
        self.assertEqual((found["commits"], found["status"], found["failures"]), (1, 0, []))

    def test_damaged(self) -> None:
        """The program's line is reported in words, by block and cause."""
        client = self.on_image()
        client.put("/a", b"hello")
        client.close()
        at = self.read(self.image).index(b"hello") // 2048
        with open(self.image, "r+b") as image:
            image.seek(at * 2048 + 60)
            image.write(b"\xff")
        told = self.command("check", self.image, status=1)
        self.assertIn(f"block {at}: a file entry or the file set descriptor is damaged, cause 21", told)
        self.assertIn("holds no volume", self.command("check", self.write("empty.img", bytes(4096)), status=1))

    def test_a_second_opinion(self) -> None:
        """The client's own reader names each place that is damaged, where the program stops at the first."""
        client = self.on_image()
        for name in "abc":
            client.put(f"/{name}", name.encode() * 5)
        client.close()
        places = [self.read(self.image).index(data) // 2048 for data in (b"aaaaa", b"ccccc")]
        with open(self.image, "r+b") as image:
            for at in places:
                image.seek(at * 2048 + 60)
                image.write(b"\xff")
        lines = self.command("check", self.image, status=1).splitlines()
        for at in places:
            self.assertEqual(len([line for line in lines if f"block {at}" in line and "cause 21" in line]), 1, lines)

    def test_blocks_of_no_commit(self) -> None:
        with open(self.image, "ab") as image:
            image.write(bytes(2 * 2048))
        self.assertIn("2 blocks after commit 0 belong to no commit", self.command("check", self.image))

    def test_with_an_expectation(self) -> None:
        """A last VAT ICB that was damaged looks like a commit that was cut."""
        client = self.on_image()
        client.put("/a", b"first")
        client.put("/a", b"second")
        client.close()
        self.command("check", self.image, "--expect", "2")
        self.assertIn("newest commit is 2, and commit 3 was expected", self.command("check", self.image, "--expect", "3", status=1))
        with open(self.image, "r+b") as image:
            image.seek(-2048 + 30, os.SEEK_END)
            image.write(b"\xff")
        self.assertEqual(self.udfburn("check", self.image), b"sound 1\n")
        self.command("check", self.image)
        told = self.command("check", self.image, "--expect", "2", status=1)
        self.assertIn("its newest commit is 1, and commit 2 was expected", told)
        self.command("check", self.image, "--expect", "-1", status=2)


class Output(Volumes):
    def closed(self, *words: str) -> "subprocess.CompletedProcess[str]":
        """Runs a command whose standard output is closed."""
        line = ["sh", "-c", 'exec "$@" >&-', "sh", *self.words(*words, where=[])]
        return subprocess.run(line, env=self.environment(), stderr=subprocess.PIPE, text=True, check=False)

    def test_a_standard_output_that_is_closed(self) -> None:
        """It is a failure, with a line, and nothing is done; but where nothing is printed."""
        local = self.write("a", b"hello")
        for words in (["ls", "--image", self.image], ["status", self.image], ["put", local, "/a", "--image", self.image]):
            done = self.closed(*words)
            self.assertEqual((done.returncode, done.stderr.count("\n")), (1, 1), done.stderr)
            self.assertIn("the standard output is closed", done.stderr)
        self.assertEqual(self.commits(), 0)
        done = self.closed("ls", "--help")
        self.assertEqual((done.returncode, done.stderr), (1, "udfburn-client: the standard output is closed\n"))
        self.assertEqual(self.closed("put", "--quiet", local, "/a", "--image", self.image).returncode, 0)
        self.assertEqual(self.closed("get", "--quiet", "/a", "-", "--image", self.image).returncode, 1)
        self.assertEqual(self.on_image().get("/a"), b"hello")

    def test_a_standard_output_that_is_full(self) -> None:
        client = self.on_image()
        client.put("/a", b"hello")
        client.close()
        # Python keeps what is printed back, or writes it at once.
        for unbuffered in ("", "1"):
            environment = {**self.environment(), "PYTHONUNBUFFERED": unbuffered}
            for words in (["ls"], ["ls", "--json"], ["get", "/a", "-"], ["ls", "--help"]):
                with open("/dev/full", "w") as full:
                    done = subprocess.run(self.words(*words, where=["--image", self.image]), env=environment, stdout=full, stderr=subprocess.PIPE, text=True, check=False)
                self.assertEqual(done.returncode, 1, done.stderr)
                self.assertEqual(done.stderr, "udfburn-client: the standard output takes no more: No space left on device\n")

    def test_a_standard_output_that_takes_a_part(self) -> None:
        """A file that does not go out whole is a failure, also where Python keeps nothing back."""
        client = self.on_image()
        client.put("/a", bytes(3000))
        client.close()
        out = os.path.join(self.room, "out")
        for unbuffered in ("", "1"):
            limited = ["sh", "-c", 'ulimit -f 1 && trap "" XFSZ && exec "$@"', "sh", *self.words("get", "/a", "-", where=["--image", self.image])]
            with open(out, "wb") as file:
                file.write(bytes(400))
                file.flush()
                done = subprocess.run(limited, env={**self.environment(), "PYTHONUNBUFFERED": unbuffered}, stdout=file, stderr=subprocess.PIPE, text=True, check=False)
            self.assertEqual((done.returncode, done.stderr), (1, "udfburn-client: the standard output takes no more: File too large\n"))

    def test_names_that_are_not_read_as_utf8(self) -> None:
        """They would be stored as other names, so nothing is done."""
        local = self.write("\u00e9", b"hello")
        environment = {**self.environment(), "LC_ALL": "C", "PYTHONUTF8": "0", "PYTHONCOERCECLOCALE": "0"}
        words = self.words("put", "--escape", local, "/", where=["--image", self.image])
        done = subprocess.run(words, env=environment, capture_output=True, text=True, check=False)
        self.assertEqual(done.returncode, 2)
        self.assertIn("set PYTHONUTF8=1", done.stderr)
        self.assertEqual(self.commits(), 0)

    def test_an_object_for_each_failure_and_one_at_the_end(self) -> None:
        where = ["--image", self.image]
        for words, status, kind in ((["ls", "/no"], 1, "NotFound"), (["rm", "/no"], 1, "NotFound"), (["ls", "no"], 2, "InvalidPath"),
                                    (["put", os.path.join(self.room, "no"), "/x"], 1, "DoesNotFit"), (["ls", "/"], 0, None)):
            done = run_client(self.line(*words, "--json", where=where), self.environment())
            self.assertEqual(done.returncode, status, done.stderr)
            lines = [json.loads(line) for line in done.stdout.splitlines()]
            self.assertEqual((lines[-1]["did"], lines[-1]["status"], len(lines[-1]["failures"])), (words[0], status, 1 if kind else 0))
            self.assertEqual([(line["error"], line["message"] in done.stderr) for line in lines[:-1]], [(kind, True)] if kind else [])
        self.assertIn("not both", self.run_command("get", "/a", "-", "--json", where=where, status=2))


if __name__ == "__main__":
    unittest.main()
