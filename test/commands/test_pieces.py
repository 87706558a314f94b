"""Files of each size as `get` prints them: a mebibyte at a time, in the memory that one mebibyte takes."""
from __future__ import annotations

import hashlib
import random
import struct
import subprocess

from commands.case import Case, Told, done
from faults.load_support import memory_of
from faults.processes import PATIENCE
from protocol import BLOCK, DONE, EXISTS, FULL, NODE, PIECE, Answer, Request, answers_of, committed, data_answer, encode, query, read_query

DATA = random.Random(20261129).randbytes(3 * PIECE + 5)
CAPACITY = 3000


def digest(told: Told) -> tuple[int, int, str, bytes]:
    """What a program reported, with the length and the SHA-256 of its output: a difference of mebibytes takes minutes to print."""
    return told.status, len(told.output), hashlib.sha256(told.output).hexdigest(), told.errors


class Pieces(Case):
    def store(self, data: bytes, capacity: int = CAPACITY) -> None:
        """Makes a volume whose file `/a` has these bytes."""
        frames, answers = [], []
        for number, at in enumerate(range(0, max(len(data), 1), PIECE), 1):
            kind = "append" if at else "create"
            frames.append(encode(Request(kind, 7, number, "/a", data[at:at + PIECE], offset=at)))
            answers.append(committed(0, number).framed())
        self.path("d.img").unlink(missing_ok=True)
        self.formatted(capacity=capacity)
        self.assertEqual(self.udfburn("apply", "d.img", stdin=b"".join(frames)), done(b"".join(answers)))

    def prints(self, data: bytes) -> None:
        self.assertEqual(digest(self.udfburn("get", "d.img", "/a")), digest(done(data)))

    def printing(self, count: int) -> subprocess.Popen[bytes]:
        """A `get` of which so many bytes were read, and which waits for a reader of the others."""
        process = self.start("UDFBURN", "get", "d.img", "/a", bufsize=0)
        assert process.stdout is not None
        left = count
        while left:
            piece = process.stdout.read(left)
            self.assertTrue(piece, "the output ends %d bytes early" % left)
            left -= len(piece)
        return process

    def test_each_size(self) -> None:
        for size in (0, 1, PIECE - 1, PIECE, PIECE + 1, 2 * PIECE, 3 * PIECE + 5):
            with self.subTest(size=size):
                self.store(DATA[:size])
                self.prints(DATA[:size])

    def test_memory(self) -> None:
        """It is looked at while the last full piece is printed: a pipe takes less than half of one."""
        peaks = []
        for size in (PIECE, 3 * PIECE + 5):
            self.store(DATA[:size])
            process = self.printing(size // PIECE * PIECE - PIECE // 2)
            peaks.append(memory_of(process.pid)["VmHWM"])
            self.assertEqual(self.ended(process).status, 0)
        # In KiB: another piece would take 1,024.
        self.assertLess(peaks[1] - peaks[0], 256, peaks)

    def test_an_output_that_is_closed(self) -> None:
        """Its reader goes after the first piece."""
        self.store(DATA)
        process = self.printing(PIECE)
        assert process.stdout is not None and process.stderr is not None
        process.stdout.close()
        self.assertEqual(process.stderr.read(), b"udfburn: 92 Write\n")
        self.assertEqual(process.wait(PATIENCE), 1)


def piece(index: int, size: int = PIECE) -> bytes:
    """A piece of a long file, by its number: each byte is this number."""
    return bytes([index]) * size


class Long(Case):
    """Files of which the entry cannot list all extents: it has room for 117, and each descriptor block for 125 more."""

    def append(self, begin: int, end: int, last: int = PIECE) -> list[int]:
        """Stores the pieces from one on up to another, the last of them with so many bytes; the codes of the answers."""
        frames = [
            encode(Request("append" if index else "create", 7, index + 1, "/a", piece(index, last if index + 1 == end else PIECE), offset=index * PIECE))
            for index in range(begin, end)
        ]
        told = self.udfburn("apply", "d.img", stdin=b"".join(frames))
        self.assertEqual((told.status, told.errors), (0, b""))
        return [answer.code for answer in answers_of(told.output)]

    def blocks(self) -> int:
        return self.path("d.img").stat().st_size // BLOCK

    def asked(self, frame: bytes) -> Answer:
        told = self.udfburn("apply", "d.img", stdin=frame)
        self.assertEqual((told.status, told.errors), (0, b""))
        (answer,) = answers_of(told.output)
        return answer

    def has_size(self, size: int) -> None:
        """The file is as long, and has its bytes where the descriptors go on in another block."""
        node = self.asked(query("stat", "/a"))
        self.assertEqual((node.code, struct.unpack("<Q", node.rest[-8:])[0]), (NODE, size))
        for border in (117, 118, 242, 243, size // PIECE):
            at = border * PIECE - 4
            if at < size:
                wanted = (piece(border - 1, 4) + piece(border, 4))[: size - at]
                self.assertEqual(self.asked(read_query("/a", at, 8)), data_answer(wanted))

    def prints(self, count: int, last: int = PIECE) -> None:
        process = self.start("UDFBURN", "get", "d.img", "/a", stderr=subprocess.DEVNULL)
        assert process.stdout is not None
        found, wanted = hashlib.sha256(), hashlib.sha256()
        for index in range(count):
            wanted.update(piece(index, last if index + 1 == count else PIECE))
        while data := process.stdout.read(PIECE):
            found.update(data)
        self.assertEqual((process.wait(PATIENCE), found.digest()), (0, wanted.digest()))

    def test_each_number_of_descriptor_blocks(self) -> None:
        """An append writes those of its file anew: one from 118 extents on, two from 243 on."""
        self.formatted(capacity=140_000)
        begin, commits = 0, 0
        for end, taken in ((117, 515), (118, 516), (242, 516), (243, 517), (244, 517)):
            self.assertEqual(set(self.append(begin, end - 1)) | {DONE}, {DONE})
            before = self.blocks()
            self.assertEqual(self.append(end - 1, end), [DONE])
            self.assertEqual(self.blocks() - before, taken)
            self.has_size(end * PIECE)
            begin, commits = end, end
            self.assertEqual(self.udfburn("check", "d.img"), done(b"sound %d\n" % commits))
        self.assertEqual(self.append(244, 245, 5), [DONE])
        self.prints(245, 5)
        log = self.udfburn("log", "d.img").output.splitlines()
        self.assertEqual([int(line.split()[0]) for line in log], [*range(245, -1, -1)])
        self.assertEqual({line.split(b" ", 2)[2] for line in log[:-1]}, {b"1 1"})
        # Its last piece is short, so it takes no more.
        for number, offset in enumerate((244 * PIECE + 5, 245 * PIECE, 879 * PIECE), 1):
            self.assertEqual(self.asked(encode(Request("append", 9, number, "/a", b"more", offset=offset))).code, EXISTS)

    def test_room(self) -> None:
        """An append asks for twice the blocks of its piece, for its descriptor blocks and its entry, and for the table's."""
        for count, asked in ((117, 1028), (118, 1029)):
            for lacking in (0, 1):
                self.path("d.img").unlink(missing_ok=True)
                self.formatted(capacity=100_000)
                self.append(0, count - 1)
                # A volume of fewer blocks is the same but for what says how many they are.
                needed = self.blocks() + asked - lacking
                self.path("d.img").unlink()
                self.formatted(capacity=needed)
                self.append(0, count - 1)
                self.assertEqual(self.append(count - 1, count), [FULL if lacking else DONE])
                self.has_size((count - lacking) * PIECE)

    def test_cut_at_each_block(self) -> None:
        """After each block but some of the data of the append that writes the first descriptor block: the file is as before or after it."""
        self.formatted(capacity=70_000)
        self.append(0, 117)
        before = self.blocks()
        self.append(117, 118)
        after = self.blocks()
        whole = self.path("d.img").read_bytes()[before * BLOCK:]
        cuts = [before + count for count in range(after - before + 1) if count < 3 or count % 64 == 0 or count > 508]
        for cut in cuts:
            with self.subTest(cut=cut - before):
                with open(self.path("d.img"), "r+b") as image:
                    image.truncate(before * BLOCK)
                    image.seek(0, 2)
                    image.write(whole[:(cut - before) * BLOCK])
                self.assertEqual(self.udfburn("log", "d.img").output.split()[0], b"118" if cut == after else b"117")
                self.has_size((118 if cut == after else 117) * PIECE)
                if cut > after - 5:
                    self.assertEqual(self.udfburn("check", "d.img"), done(b"sound %d\n" % (118 if cut == after else 117)))
        # The next one goes on after what was cut.
        with open(self.path("d.img"), "r+b") as image:
            image.truncate((after - 3) * BLOCK)
        self.assertEqual(self.append(117, 119), [DONE, DONE])
        self.has_size(119 * PIECE)
        self.prints(119)
