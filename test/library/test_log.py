"""The commits that the library reports one by one are those of `udfburn log`, each with the moment of its request."""
from __future__ import annotations

import random
import struct
from typing import List

from library.building import Case
from library.test_streams import a_stream
from protocol import answers_of

SEED = 20261128
STREAMS = 40
FORMATTED = 1_600_000_000_000_000
LAST_RESULT = 10


def moments(stream: bytes, answers: bytes) -> List[int]:
    """The moment of each commit, the newest first, by the messages and their answers: a request that is committed for the first
    time gets the next number."""
    found = [FORMATTED]
    at = 0
    for answer in answers_of(answers):
        length = struct.unpack_from("<I", stream, at)[0]
        payload = stream[at + 4:at + 4 + length]
        at += 4 + length
        if answer.code <= LAST_RESULT and answer.commit == len(found):
            found.append(struct.unpack_from("<Q", payload, 17)[0])
    return found[::-1]


class Log(Case):
    def told(self, program: str, image: str) -> List[str]:
        """The lines of the library, of which the last is the status at its end."""
        return self.ran(program, image).splitlines()

    def test_random_streams(self) -> None:
        chance = random.Random(SEED)
        program = self.compiled("log.c")
        made = self.udfburn("format", "new.img", "DISC", str(FORMATTED), "3000")
        self.assertEqual((made.returncode, made.stderr), (0, b""))
        new = (self.folder / "new.img").read_bytes()
        commits = 0
        for number in range(STREAMS):
            stream = a_stream(chance)
            (self.folder / "one.img").write_bytes(new)
            done = self.udfburn("apply", "one.img", stdin=stream)
            wanted = self.udfburn("log", "one.img")
            self.assertEqual((done.returncode, wanted.returncode), (0, 0))
            lines = self.told(program, "one.img")
            with self.subTest(number=number):
                self.assertEqual(lines[-1], "UDFBURN_NONE")
                self.assertEqual([line.rpartition(" ")[0] for line in lines[:-1]], wanted.stdout.decode().splitlines())
                self.assertEqual([int(line.split()[4]) for line in lines[:-1]], moments(stream, done.stdout))
            commits += len(lines) - 2
        # So the streams commit something.
        self.assertGreater(commits, 5 * STREAMS)

    def test_a_damaged_chain(self) -> None:
        """A table in the middle is unreadable: the commits above it are reported, and the end says so where `udfburn log` refuses."""
        chance = random.Random(SEED)
        program = self.compiled("log.c")
        self.udfburn("format", "one.img", "DISC", str(FORMATTED), "3000")
        while len(self.udfburn("log", "one.img").stdout.splitlines()) < 6:
            self.udfburn("apply", "one.img", stdin=a_stream(chance))
            lines = self.udfburn("log", "one.img").stdout.decode().splitlines()
        with open(self.folder / "one.img", "r+b") as image:
            image.seek(int(lines[3].split()[1]) * 2048)
            image.write(bytes(2048))
        self.assertNotEqual(self.udfburn("log", "one.img").returncode, 0)
        told = self.told(program, "one.img")
        self.assertEqual([line.rpartition(" ")[0] for line in told[:-1]], lines[:3])
        self.assertEqual(told[-1], "UDFBURN_VOLUME")
