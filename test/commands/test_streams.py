"""Streams that fail, and frames that `send` counts."""
from __future__ import annotations

import os
import resource
import signal
import socket

from commands.case import CREATE, CREATED, CREATED_BLOCKS, Case, Told, done, feed, received
from faults.processes import PATIENCE

READ = b"udfburn: 91 Read\n"
WRITE = b"udfburn: 92 Write\n"
# Bytes that a file of the program may have: more than its image has.
LIMIT = 1_000_000


def limit() -> None:
    """What a child does before it becomes the program: with the signal ignored, a write at the limit fails."""
    signal.signal(signal.SIGXFSZ, signal.SIG_IGN)
    resource.setrlimit(resource.RLIMIT_FSIZE, (LIMIT, resource.RLIM_INFINITY))


class Failing(Case):
    def test_an_input_that_fails(self) -> None:
        """It comes byte by byte. What came is answered before more is waited for."""
        ours, theirs = socket.socketpair()
        output, written = socket.socketpair()
        with ours, theirs, output, written:
            # Our end closes with a byte that nobody read: so the read of the other end fails, after what was sent before.
            theirs.sendall(b"x")
            process = self.start("UDFBURN", "apply", "mem:3000", stdin=theirs, stdout=written)
            theirs.close()
            written.close()
            feed(ours, CREATE, 1)
            self.assertEqual(received(output, len(CREATED)), CREATED)
            self.assertIsNone(process.poll())
            ours.close()
            self.assertEqual(self.ended(process), Told(1, b"", READ))
            self.assertEqual(received(output, 1), b"")

    def test_an_input_that_is_a_folder(self) -> None:
        folder = os.open(self.folder, os.O_RDONLY)
        self.addCleanup(os.close, folder)
        self.assertEqual(self.ended(self.start("UDFBURN", "apply", "mem:3000", stdin=folder)), Told(1, b"", READ))

    def in_room(self, left: int, *words: str, stdin: bytes) -> bytes:
        """What a command writes to a file that has room for `left` bytes more. The command is refused."""
        self.path("input").write_bytes(stdin)
        self.path("output").unlink(missing_ok=True)
        with open(self.path("input"), "rb") as given, open(self.path("output"), "wb") as output:
            output.seek(LIMIT - left)
            process = self.start("UDFBURN", *words, stdin=given, stdout=output, preexec_fn=limit)
            self.assertEqual(self.ended(process), Told(1, b"", WRITE))
        return self.path("output").read_bytes()[LIMIT - left:]

    def test_an_output_that_fails(self) -> None:
        """The request is committed once, though its answer is not written whole."""
        self.formatted()
        for words, stdin, left, written in (
            (("apply", "d.img"), CREATE, 9, CREATED[:9]),
            (("apply", "d.img"), CREATE, 0, b""),
            (("ls", "d.img", "/"), b"", 3, b"f a"),
            (("get", "d.img", "/a"), b"", 4, b"hell"),
        ):
            with self.subTest(words, left=left):
                self.assertEqual(self.in_room(left, *words, stdin=stdin), written)
                self.has_blocks(CREATED_BLOCKS)


class Frames(Case):
    """A stream, and how many frames end in it. All at once or byte by byte, it arrives unchanged, and `send` counts them."""

    STREAMS = (
        (b"", 0),
        (b"\0\0\0", 0),
        (b"\0\0\0\0", 1),
        (b"\2\0\0\0a", 0),
        (b"\2\0\0\0ab\0\0\0\0\1\0\0\0c\1\0", 3),
        (b"\0\0\x11\0\0\0\0\0", 0),
        # A length above the limit is the last.
        (b"\0\0\0\0\1\0\x11\0\0\0\0\0", 2),
    )

    def send(self, frames: bytes, answers: bytes, size: int) -> Told:
        """`send` of these bytes to a daemon that the test plays, which answers with these, both in pieces of this size."""
        self.path("s").unlink(missing_ok=True)
        ours, theirs = socket.socketpair()
        with socket.socket(socket.AF_UNIX) as listener, ours, theirs:
            listener.bind(str(self.path("s")))
            listener.listen()
            listener.settimeout(PATIENCE)
            process = self.start("UDFBURN", "send", "s", stdin=theirs)
            theirs.close()
            with listener.accept()[0] as connection:
                feed(ours, frames, size)
                ours.close()
                self.assertEqual(received(connection, len(frames) + 1), frames)
                feed(connection, answers, size)
            return self.ended(process)

    def test_those_that_are_sent(self) -> None:
        """As many answers are enough, and one less is not."""
        for frames, count in self.STREAMS:
            for size in (1, len(frames) + len(CREATED)):
                with self.subTest(frames=frames, size=size):
                    self.assertEqual(self.send(frames, CREATED * count, size), done(CREATED * count))
                    if count:
                        self.assertEqual(self.send(frames, CREATED * (count - 1), size), Told(1, CREATED * (count - 1), READ))

    def test_those_that_come_back(self) -> None:
        """They are enough for as many frames, and not for one more."""
        for answers, count in self.STREAMS:
            for size in (1, len(answers) + len(CREATE)):
                with self.subTest(answers=answers, size=size):
                    self.assertEqual(self.send(b"\0\0\0\0" * count, answers, size), done(answers))
                    self.assertEqual(self.send(b"\0\0\0\0" * (count + 1), answers, size), Told(1, answers, READ))
