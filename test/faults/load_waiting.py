"""Clients of the daemon that stall: each is let go after a minute of silence, and then the next client is served."""
from __future__ import annotations

import threading
import time
import unittest
from pathlib import Path
from typing import Callable, NamedTuple, Optional, Sequence

from faults.load_support import Case
from faults.processes import PATIENCE
from faults.running import Client, Daemon
from protocol import NO_NODE, PIECE, Answer, Request, answers_of, committed, data_answer, encode, query

# Seconds without a byte after which a client is let go, and those that a message may take, and as many for each mebibyte
# (docs/OPERATIONS.md).
SILENCE = 60.0
# What would be, at the place of a length, that of almost a mebibyte.
LENGTH = b"\x0f\x0f\x0f\0"


class Stall:
    """A daemon with a client that stalls, and another that waits for its turn; looked at when its time has come."""

    def __init__(self, folder: Path, name: str, stall: Callable[[Client], None]) -> None:
        self.name = name
        self.daemon = Daemon(folder, name + ".img", socket_name=name)
        # Not after the client's last byte, since this process may be kept waiting between the two.
        self.begin = time.monotonic()
        self.stalling = self.daemon.client()
        stall(self.stalling)
        self.waiting = self.daemon.client()
        self.answer: Optional[Answer] = None
        self.seconds = 0.0
        self.thread = threading.Thread(target=self.wait)
        self.thread.start()

    def wait(self) -> None:
        try:
            self.answer = self.waiting.ask(query("list", "/none"))
        except OSError:
            pass
        self.seconds = time.monotonic() - self.begin

    def end(self) -> None:
        self.daemon.kill()
        self.thread.join()
        self.stalling.close()
        self.waiting.close()


class Turn(NamedTuple):
    """Messages that a slow client sends in parts, before it takes their answers. `seconds` are those of the pauses between the parts,
    and `most` those within which the last part is to be sent."""

    messages: int
    parts: Sequence[bytes]
    seconds: float
    most: float


def turns_of(messages: Sequence[bytes], size: int, parts: int, seconds: float, most: float) -> list[Turn]:
    """Each message in turn: so many parts of this size, and the rest."""
    return [Turn(1, [*(each[at * size:(at + 1) * size] for at in range(parts)), each[parts * size:]], seconds, most) for each in messages]


def turn_across(messages: Sequence[bytes], head: int, seconds: float, most: float) -> Turn:
    """All of the messages, where each part ends with the head of the next message."""
    tails = [b"", *(each[head:] for each in messages)]
    heads = [*(each[:head] for each in messages), b""]
    return Turn(len(messages), [tail + begin for tail, begin in zip(tails, heads)], seconds, most)


class Slow:
    """A daemon with a client that sends its messages in parts, with a pause after each of them but the last."""

    def __init__(self, folder: Path, name: str, turns: Sequence[Turn]) -> None:
        self.name, self.turns = name, turns
        self.daemon = Daemon(folder, name + ".img", "--connections", "1", socket_name=name)
        self.answers: list[Optional[Answer]] = []
        self.was_late = False
        self.thread = threading.Thread(target=self.send)
        self.thread.start()

    def send(self) -> None:
        with self.daemon.client() as client:
            for turn in self.turns:
                begin = time.monotonic()
                try:
                    for part in turn.parts[:-1]:
                        client.send(part)
                        time.sleep(turn.seconds / (len(turn.parts) - 1))
                    client.send(turn.parts[-1])
                except OSError:
                    return
                finally:
                    # This process may be kept waiting: then the messages took longer than they may.
                    self.was_late = self.was_late or time.monotonic() - begin > turn.most - 2.0
                self.answers += [client.answer() for _ in range(turn.messages)]

    def end(self) -> None:
        self.daemon.kill()
        self.thread.join()


class Waiting(Case):
    """Clients that stall: they are let go after a minute of silence, and then the next is served. All wait at once."""

    def silent(self, client: Client) -> None:
        pass

    def half(self, client: Client) -> None:
        client.send(encode(Request("create", 9, 1, "/never", b"x" * 5000))[:700])

    def answered_and_silent(self, client: Client) -> None:
        request = Request("create", 9, 1, "/kept", b"x" * 5000)
        self.assertEqual(client.ask(encode(request)), committed(0, 1))

    def never_reads(self, client: Client) -> None:
        request = Request("create", 9, 1, "/kept", b"x" * 1_000_000)
        self.assertEqual(client.ask(encode(request)), committed(0, 1))
        client.send(query("get", "/kept") * 10)

    def never_reads_many(self, client: Client) -> None:
        request = Request("create", 9, 1, "/kept", b"x" * 100)
        self.assertEqual(client.ask(encode(request)), committed(0, 1))
        client.send(query("get", "/kept") * 5000)

    def takes_little(self, client: Client) -> None:
        """It takes a byte now and then, and no piece of an answer whole."""
        self.never_reads(client)
        self.often(lambda: client.socket.recv(1), SILENCE / 12)

    def drips(self, client: Client) -> None:
        """It sends a message a byte at a time, and is never silent for long."""
        message = iter(encode(Request("create", 9, 1, "/never", b"x" * 5000)))
        self.often(lambda: client.socket.send(bytes([next(message)])), SILENCE / 12)

    def drips_on(self, client: Client) -> None:
        """It does so after a message and the beginning of the next, which are sent at once."""
        message = encode(Request("create", 9, 2, "/never", b"x" * 5000))
        client.send(encode(Request("create", 9, 1, "/kept", b"x" * 5000)) + message[:700])
        rest = iter(message[700:])
        self.often(lambda: client.socket.send(bytes([next(rest)])), SILENCE / 12)

    def sips(self, client: Client) -> None:
        """It takes pieces of an answer whole, and few of them."""
        self.never_reads(client)
        self.often(lambda: client.socket.recv(10_000), SILENCE / 30)

    @staticmethod
    def often(call: Callable[[], object], pause: float) -> None:
        def calls() -> None:
            try:
                while call():
                    time.sleep(pause)
            except OSError:
                pass

        threading.Thread(target=calls, daemon=True).start()

    def test_a_minute_of_silence(self) -> None:
        self.fresh("base.img", capacity=20000)
        kinds = {"silent": self.silent, "half": self.half, "done": self.answered_and_silent,
                 "unread": self.never_reads, "many": self.never_reads_many, "little": self.takes_little, "drips": self.drips,
                 "on": self.drips_on, "sips": self.sips}
        # Those that take less than a minute for each message, and two for one of a mebibyte, are served. What follows the heads of
        # the last ones would be the length of a long message.
        small = [encode(Request("create", 9, number, "/slow%d" % number, b"x" * 5000)) for number in range(1, 5)]
        large = [encode(Request("create", 9, 1, "/large", b"x" * PIECE))]
        across = [encode(Request("create", 9, number, "/across%d" % number, LENGTH * 1250)) for number in range(1, 9)]
        served = {"slow": turns_of(small, 1, 3, 0.3 * SILENCE, SILENCE), "large": turns_of(large, PIECE // 9, 9, 1.2 * SILENCE, 2 * SILENCE),
                  "across": [turn_across(across, across[0].index(LENGTH), 1.44 * SILENCE, 2.2 * SILENCE)]}
        stalls: list[Stall] = []
        slow: list[Slow] = []
        try:
            for name, kind in kinds.items():
                self.path(name + ".img").write_bytes(self.path("base.img").read_bytes())
                stalls.append(Stall(self.folder, name, kind))
            for name, turns in served.items():
                self.path(name + ".img").write_bytes(self.path("base.img").read_bytes())
                slow.append(Slow(self.folder, name, turns))
            for each in slow:
                each.thread.join(PATIENCE)
                with self.subTest(slow=each.name):
                    if not each.was_late:
                        self.assertEqual(each.answers, [committed(0, number + 1) for number in range(sum(turn.messages for turn in each.turns))])
                        self.assertEqual((each.daemon.wait(), each.daemon.errors()), (0, b""))
            for stall in stalls:
                with self.subTest(stall=stall.name):
                    is_unread = stall.name in ("unread", "many", "little", "sips")
                    stall.thread.join(PATIENCE)
                    self.assertFalse(stall.thread.is_alive(), "the next client was never served")
                    self.assertEqual(stall.answer, Answer(NO_NODE))
                    self.assertGreater(stall.seconds, SILENCE - 2.0)
                    line = b"udfburnd: 92 Write\n" if is_unread else b"udfburnd: 91 Read\n"
                    self.assertEqual(stall.daemon.errors(), line)
                    self.assertIsNone(stall.daemon.process.poll())
        finally:
            for stall in stalls:
                stall.end()
            for each in slow:
                each.end()
        # What was committed stays, what was not whole does not.
        late = [each.name for each in slow if each.was_late]
        for name, path, data in (("silent", "/never", b""), ("half", "/never", b""), ("drips", "/never", b""), ("on", "/never", b""),
                                 ("on", "/kept", b"x" * 5000), ("done", "/kept", b"x" * 5000), ("unread", "/kept", b"x" * 1_000_000),
                                 ("many", "/kept", b"x" * 100), ("little", "/kept", b"x" * 1_000_000), ("sips", "/kept", b"x" * 1_000_000),
                                 ("slow", "/slow4", b"x" * 5000), ("large", "/large", b"x" * PIECE), ("across", "/across8", LENGTH * 1250)):
            if name in late:
                continue
            expected = data_answer(data) if data else Answer(NO_NODE)
            ran = self.apply(query("get", path), image=name + ".img")
            self.assertEqual((ran.status, answers_of(ran.output)), (0, [expected]))


if __name__ == "__main__":
    unittest.main()
