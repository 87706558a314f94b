"""Daemons and clients that are killed, at moments as a die falls, in the middle of an import.

KILLS of the environment is how often each is killed (200).
"""

from __future__ import annotations

import os
import random
import signal
import sys
import threading
import time
import unittest
from contextlib import closing
from typing import Any, Dict, Iterator, List, Optional, Set

import udfburn
from udfburn import Client
from udfburn import protocol as p
from udfburn.ledger.ledger import Ledger
from udfburn.ledger.records import LARGE_DATA
from udfburn.protocol.units import Moment
from udfburn.wire.operations import Operation
from udfburn.trees.tree import ImportOptions, put_all

from .programs import PATIENCE, UDFBURN, Daemon, WithPrograms

KILLS = int(os.environ.get("KILLS", "200"))
FILES = 9 * 440
"""Files that there are names for, in nine directories."""
PER_KILL = 60
"""Files for each kill at most."""
BATCH, BATCHES = 100, 40
"""Files that are imported at once, and how many times a volume has room for the names of so many."""
CODE = os.path.dirname(udfburn.__file__)
NAMES = (
    "session/session.py", "session/conversation.py", "session/recovery.py", "session/in_flight.py", "session/shown.py", "session/recognition.py", "image/identity.py", "ledger/ledger.py", "ledger/file.py", "ledger/records.py", "ledger/schema.py", "trees/tree.py", "wire/connection.py",
    "trees/seal.py", "local/sources.py", "trees/ahead.py", "wire/library.py", "session/together.py",
)
TRACED = {os.path.join(CODE, name) for name in NAMES}


def content(index: int) -> bytes:
    """The bytes of a file: each has its own. Of some the ledger keeps where they are, and not the bytes."""
    return random.Random(index).randbytes(LARGE_DATA + index % 9 if index % 16 == 3 else index * 7 % 3000)


class DaemonKilled(WithPrograms):
    capacity = 450_000

    def test_an_import_goes_on(self) -> None:
        daemon, killed, moved, done = self.serve(), [0], threading.Event(), threading.Event()
        chance = random.Random(1)

        def killer() -> None:
            try:
                while killed[0] < KILLS and not done.is_set():
                    # Before most kills something was done since the last, so that the import goes on however slow all is.
                    while killed[0] % 4 and not done.is_set() and not moved.wait(0.1):
                        pass
                    time.sleep(chance.uniform(0.0, 0.03))
                    moved.clear()
                    daemon.kill()
                    killed[0] += 1
                    daemon.start()
                    daemon.await_socket()
            finally:
                done.set()

        def operations() -> Iterator[Operation]:
            for folder in range(9):
                yield Operation(p.MakeDir, (f"d{folder}",), Moment(0))
            index = 0
            # Every file is new while there is room for names; then files are replaced.
            while not done.is_set():
                # However fast all is, the volume has room.
                if index < PER_KILL * (killed[0] + 1):
                    path = (f"d{index % 9}", f"f{index % FILES}")
                    yield Operation(p.Create if index < FILES else p.Replace, path, Moment(index), content(index))
                    index += 1
                else:
                    done.wait(0.001)

        thread = threading.Thread(target=killer)
        thread.start()
        wanted: Dict[p.Path, int] = {}
        count = 0
        try:
            with self.client() as client:
                for outcome in client.run(operations()):
                    count += 1
                    moved.set()
                    self.assertEqual((outcome.code, outcome.commit, outcome.number), (p.Code.DONE, count, count))
                    if outcome.operation.kind is not p.MakeDir:
                        wanted[outcome.operation.path] = outcome.operation.moment
                history = client.session().ledger.history(client.session().volume())
        finally:
            done.set()
            thread.join()
        self.assertEqual(killed[0], KILLS)
        self.assertEqual([(number, commit) for number, _, _, commit, _ in history], [(number, number) for number in range(1, count + 1)])
        self.assertTrue(all(confirmed for *_, confirmed in history))
        self.assertEqual(self.commits(), count, "each request once")
        with Client(f"unix:{self.path}", patience=PATIENCE) as reader:
            for answer, path in zip(reader.ask_all(map(p.Get, wanted)), wanted):
                self.assertEqual(answer, p.Data(content(wanted[path])))
        self.assertEqual(self.udfburn("check", self.image), b"sound %d\n" % count)


class ClientKilled(WithPrograms):
    """A client that deletes its sources. Whatever is gone is on the image, and each request is there once."""

    capacity = 450_000

    def setUp(self) -> None:
        super().setUp()
        self.files: Dict[str, int] = {}
        self.gone: Set[str] = set()
        self.batches = 0
        self.chance = random.Random(2)
        self.longest = 0.12
        # An import of all files of a folder takes some 33,000 lines, and sends its first request after 5,000 of them.
        self.most_lines = 33_000.0

    def sources(self) -> None:
        """A folder of files that are not stored yet; where the volume has no room for further names the last ones come again, which
        are removed since it has them."""
        self.batches = min(self.batches + 1, BATCHES)
        for index in range(BATCH):
            number = self.batches * 1000 + index
            local = self.write(f"sources/b{self.batches}/f{index}", content(number))
            self.files[local] = number
            self.gone.discard(local)

    def import_once(self, verify: bool) -> None:
        """What a user does again and again until it is done."""
        with Client(self.way, ledger=self.ledger, program=UDFBURN, patience=PATIENCE) as client:
            put_all(client, [(os.path.join(self.room, "sources"), ("x",))], ImportOptions(recursive=True, skip_same=True, delete_source=True, verify=verify))

    def killed_by_time(self, verify: bool) -> bool:
        """Runs the import in a process of its own, and kills it. Whether it was killed before its end."""
        child = os.fork()
        if not child:
            self.child(verify, None)
        time.sleep(self.chance.uniform(0.0, self.longest))
        os.kill(child, signal.SIGKILL)
        killed = os.WIFSIGNALED(os.waitpid(child, 0)[1])
        # However fast or slow the machine is, it is seldom at its end, and not at its beginning alone.
        self.longest *= 1.1 if killed else 0.8
        return killed

    def killed_by_line(self, verify: bool) -> bool:
        """The same; it kills itself between two statements."""
        # Drawn here: what a child draws, the next one would draw again. More of them are late, when requests are under way.
        lines = 1 + int(self.most_lines * self.chance.random() ** 0.5)
        child = os.fork()
        if not child:
            self.child(verify, lines)
        killed = os.WIFSIGNALED(os.waitpid(child, 0)[1])
        # The fewer files are left, the fewer lines it takes.
        self.most_lines *= 1.1 if killed else 0.8
        return killed

    def child(self, verify: bool, lines: Optional[int]) -> None:
        status = 1
        try:
            if lines is not None:
                sys.settrace(killer(lines))
            self.import_once(verify)
            status = 0
        finally:
            sys.settrace(None)
            os._exit(status)

    def check_gone(self) -> None:
        """No source is gone that is not on the image with its bytes."""
        gone = [local for local in self.files if local not in self.gone and not os.path.exists(local)]
        paths = [("x", *os.path.relpath(local, os.path.join(self.room, "sources")).split(os.sep)) for local in gone]
        with Client(self.way, program=UDFBURN, patience=PATIENCE) as reader:
            answers = list(reader.ask_all(map(p.Get, paths)))
        for answer, local in zip(answers, gone):
            self.assertEqual(answer, p.Data(content(self.files[local])), local)
        self.gone.update(gone)

    def requests(self) -> int:
        """How many requests the ledger has."""
        with closing(Ledger(self.ledger, wait=PATIENCE)) as ledger:
            return sum(len(ledger.sent(volume)) for volume in ledger.volumes())

    def kill_often(self, kills: int, kill: Any) -> int:
        """Kills so many imports, and gives how many of them had sent requests by then."""
        self.sources()
        killed = at_work = 0
        while killed < kills:
            before = self.requests()
            ended = not kill(verify=killed % 2 == 0)
            killed += not ended
            at_work += not ended and self.requests() > before
            if killed % 10 == 0 or ended:
                self.check_gone()
            if ended:
                self.assertEqual(len(self.gone), len(self.files), "an import that ended stored all")
                self.sources()
        self.import_once(True)
        self.check_gone()
        self.assertEqual(len(self.gone), len(self.files))
        # A directory for each folder, and each file once, whatever was killed.
        with Client(self.way, ledger=self.ledger, program=UDFBURN, patience=PATIENCE) as client:
            self.assertEqual(client.resume(), [])
            history = client.session().ledger.history(client.session().volume())
        self.assertEqual(self.commits(), 1 + self.batches + len(self.files))
        self.assertEqual([number for number, *_ in history], list(range(1, self.commits() + 1)))
        self.assertEqual([commit for _, _, _, commit, _ in history], list(range(1, self.commits() + 1)))
        self.assertEqual({code for _, _, code, _, _ in history}, {0})
        paths: List[str] = [path for _, path, *_ in history]
        self.assertEqual(len(set(paths)), len(paths), "each request once")
        return at_work

    def test_by_time_over_the_socket(self) -> None:
        self.serve()
        self.way = f"unix:{self.path}"
        self.kill_often(KILLS, self.killed_by_time)

    def test_by_line_over_the_socket(self) -> None:
        self.serve()
        self.way = f"unix:{self.path}"
        self.assertGreater(self.kill_often(KILLS, self.killed_by_line), KILLS // 5)

    def test_by_time_on_an_image(self) -> None:
        """The program goes on with what it has read, while the next one waits for the image."""
        self.way = f"image:{self.image}"
        self.longest = 0.5
        self.kill_often(KILLS // 10, self.killed_by_time)

    def test_by_line_on_an_image(self) -> None:
        self.way = f"image:{self.image}"
        self.assertGreater(self.kill_often(KILLS // 10, self.killed_by_line), KILLS // 40)

    def test_both_are_killed(self) -> None:
        daemon: Daemon = self.serve()
        self.way = f"unix:{self.path}"

        def kill(verify: bool) -> bool:
            if self.chance.random() < 0.5:
                daemon.kill()
                daemon.start()
            return self.killed_by_time(verify)

        self.kill_often(KILLS // 10, kill)


def killer(lines: int) -> Any:
    """Kills the process before the line of the client's code that comes so many lines from now."""
    left = [lines]

    def line(frame: Any, event: str, argument: object) -> Any:
        if event == "line":
            left[0] -= 1
            if not left[0]:
                os.kill(os.getpid(), signal.SIGKILL)
        return line

    def call(frame: Any, event: str, argument: object) -> Any:
        return line if frame.f_code.co_filename in TRACED else None

    return call


if __name__ == "__main__":
    unittest.main()
