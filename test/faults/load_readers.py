"""Readers beside a writer: each reading is the state after some commit, and no commit is disturbed, also where the reader may not write."""
from __future__ import annotations

import os
import select
import signal
import subprocess
import threading
import unittest
from contextlib import contextmanager
from typing import Any, Callable, Iterator, Sequence

from faults.case import need_shim
from faults.load_support import Case, Die, as_nobody, counted, during, listing, log_lines
from faults.log import read_log
from faults.machine import lacks, need_root, need_tools
from faults.pages import Disk
from faults.processes import PATIENCE, await_true, state_of
from faults.programs import built
from faults.running import Daemon, Ran, environment
from protocol import FAULT, Answer, File, Model, Request, committed, encode, query

# What is read all the time, beside the root.
WATCHED = "/watched"


class Reading(Case):
    """A list of requests, and the state after each of them."""

    def begin(self, seed: int, count: int) -> None:
        self.fresh(capacity=400000)
        die = Die(seed)
        state = Model()
        self.states = [state.copy()]
        self.requests: list[Request] = []
        for number in range(count):
            if number % 4 == 0:
                kind = "replace" if number else "create"
                request = Request(kind, 9, state.latest.get(9, 0) + 1, WATCHED, b"%06d" % number * die.random.choice([1, 400, 20000]))
            else:
                request = die.request(state)
            state.answer(request)
            self.requests.append(request)
            self.states.append(state.copy())

    def expected(self, words: list[str], state: Model) -> Ran:
        """What a reading shows of a state."""
        if words[0] == "ls":
            return Ran(0, listing(state, "/"), b"")
        if words[0] == "check":
            return Ran(0, b"sound %d\n" % state.commits, b"")
        node = state.tree.at((WATCHED[1:],))
        if node is None:
            return Ran(1, b"", b"udfburn: 96 NotFound\n")
        assert isinstance(node, File)
        return Ran(0, node.data, b"")

    def is_a_state(self, words: list[str], ran: Ran, first: int, last: int) -> None:
        """The reading is of a state between these, which were acknowledged before it and sent until its end."""
        if words[0] == "log":
            self.assertEqual((ran.status, ran.errors), (0, b""))
            lines = log_lines(ran)
            self.assertIn(lines[0][0], range(first, last + 1))
            self.assertEqual([line[0] for line in lines], list(range(lines[0][0], -1, -1)))
            self.assertEqual([line[2:] for line in lines], [counted(self.states[line[0]]) for line in lines])
            return
        found = [number for number in range(first, last + 1) if ran == self.expected(words, self.states[number])]
        self.assertTrue(found, "%r between the commits %d and %d: %r" % (words, first, last, ran))


class Beside(Reading):
    READINGS = [["ls", "d.img", "/"], ["get", "d.img", WATCHED], ["log", "d.img"], ["check", "d.img"]]

    def read_beside(self, seed: int, popen: dict[str, Any]) -> None:
        """Two readers in loops beside a daemon."""
        self.begin(seed, 400)
        acknowledged = sent = 0
        finished = threading.Event()
        faults: list[BaseException] = []
        counts: dict[str, int] = {}
        at_work: set[int] = set()
        moved = 0

        def read(start: int) -> None:
            nonlocal moved
            number = start
            try:
                while not finished.is_set():
                    words = self.READINGS[number % len(self.READINGS)]
                    first = acknowledged
                    at_work.add(start)
                    ran = self.udfburn(*words, **popen)
                    at_work.remove(start)
                    last = sent
                    with during("reading %d" % number):
                        self.is_a_state(words, ran, first, last)
                    counts[words[0]] = counts.get(words[0], 0) + 1
                    moved += last > first
                    number += 1
            except BaseException as fault:
                faults.append(fault)

        readers = [threading.Thread(target=read, args=(start,)) for start in (0, 2)]
        with Daemon(self.folder) as daemon, daemon.client() as client:
            for reader in readers:
                reader.start()
            try:
                for request, state in zip(self.requests, self.states[1:]):
                    # So that commits are beside readings, of which some hundred are made.
                    await_true(lambda: bool(faults or at_work and sum(counts.values()) * 2 >= acknowledged))
                    sent += 1
                    model = self.states[sent - 1].copy()
                    self.assertEqual(client.ask(encode(request)), model.answer(request))
                    self.assertEqual(model.commits, state.commits)
                    acknowledged += 1
            finally:
                finished.set()
                for reader in readers:
                    reader.join()
            self.assertEqual(daemon.errors(), b"")
        if faults:
            raise faults[0]
        self.assertEqual(set(counts), {"ls", "get", "log", "check"})
        # Readings without a commit beside them would show nothing.
        self.assertGreater(moved, 20)
        self.assertEqual(self.sound(), len(self.requests))

    def test_beside_a_daemon(self) -> None:
        self.read_beside(7021, {})

    def test_beside_a_daemon_by_another_user(self) -> None:
        """A reader to whom the image and its folder are not his to write."""
        if os.geteuid() != 0:
            need_root()
        self.fresh()
        self.path("d.img").chmod(0o644)
        self.folder.chmod(0o755)
        self.read_beside(7022, as_nobody())

    def test_a_reader_that_stopped(self) -> None:
        """A reader that rests keeps no commit waiting, and goes on with the state that it found at first."""
        need_shim()
        self.begin(7023, 60)
        for number, (words, rule) in enumerate((words, rule) for words in self.READINGS for rule in ("pread:1:H", "pread:3:H", "pread:6:H")):
            with during("%r, %s" % (words, rule)):
                self.fresh(capacity=400000)
                with Daemon(self.folder) as daemon, daemon.client() as client:
                    for request in self.requests[:20]:
                        self.assertIsNotNone(client.ask(encode(request)))
                    reader = subprocess.Popen([built().udfburn, *words], cwd=self.folder, stdin=subprocess.DEVNULL, stdout=subprocess.PIPE,
                                              stderr=subprocess.PIPE, env=environment("d.img", None, rule))
                    try:
                        self.assertTrue(await_true(lambda: state_of(reader.pid) == "T"), "the rule came to nothing")
                        model = self.states[20].copy()
                        for request in self.requests[20:]:
                            self.assertEqual(client.ask(encode(request)), model.answer(request))
                        reader.send_signal(signal.SIGCONT)
                        output, errors = reader.communicate(timeout=PATIENCE)
                    finally:
                        reader.kill()
                        reader.wait()
                    self.is_a_state(words, Ran(reader.returncode, output, errors), 20, 20)
                    self.assertEqual(daemon.errors(), b"")

    def test_beside_commits_that_are_cut(self) -> None:
        """A reader in the middle of a commit: at each of its writes, finds the state before it."""
        need_shim()
        request = Request("create", 7, 1, WATCHED, b"w" * 200_000)
        for write in range(1, 6):
            for action in ("H", "P1000K", "P100000K", "k"):
                with self.subTest(write=write, action=action):
                    self.fresh(capacity=4000)
                    with Daemon(self.folder, rules="pwrite:%d:%s" % (write, action)) as daemon, daemon.client() as client:
                        client.send(encode(request))
                        process = daemon.process.pid
                        await_true(lambda: state_of(process) in "TZX" or bool(select.select([client.socket], [], [], 0)[0]))
                        if state_of(process) not in "TZX":
                            answer = client.answer()
                            if answer is not None:
                                # There are fewer writes: the bytes, what is encoded after them, the last block of that, and the mark.
                                self.assertGreater(write, 4)
                                self.assertEqual(answer, committed(0, 1))
                                continue
                            daemon.wait()
                        commits = log_lines(self.udfburn("log", "d.img"))[0][0]
                        # Behind its first bytes a mark is zeros, as its place is before.
                        self.assertLessEqual(commits, int(action in ("k", "P100000K") or write == 4))
                        expected = Ran(0, request.data, b"") if commits else Ran(1, b"", b"udfburn: 96 NotFound\n")
                        self.assertEqual(self.udfburn("get", "d.img", WATCHED), expected)
                        self.assertEqual(self.sound(), commits)


    @contextmanager
    def stopped_reader(self, words: Sequence[str], rule: str) -> Iterator[subprocess.Popen[bytes]]:
        """A reader that has stopped itself where the rule says."""
        reader = subprocess.Popen([built().udfburn, *words], cwd=self.folder, stdin=subprocess.DEVNULL, stdout=subprocess.PIPE,
                                  stderr=subprocess.PIPE, env=environment("d.img", None, rule))
        try:
            self.assertTrue(await_true(lambda: state_of(reader.pid) == "T"), "the rule came to nothing")
            yield reader
        finally:
            reader.kill()
            reader.wait()

    def test_beside_a_write_that_fails(self) -> None:
        """A reader that found blocks which are cut away after it reports the state, or that a read failed; the next reports the state."""
        need_shim()
        self.begin(7025, 20)
        request = Request("create", 7, 1, "/never", b"n" * 200_000)
        for words in self.READINGS:
            for rule in ("pread:1:H", "pread:2:H", "pread:9:H"):
                with during("%r, %s" % (words, rule)):
                    self.fresh(capacity=400000)
                    self.apply(b"".join(encode(each) for each in self.requests))
                    before = self.path("d.img").stat().st_size
                    with Daemon(self.folder, rules="pwrite:1:P40960E28;pwrite:2:E28;ftruncate:1:H") as daemon, daemon.client() as client:
                        client.send(encode(request))
                        self.assertTrue(await_true(lambda: state_of(daemon.process.pid) == "T"), "nothing was cut")
                        self.assertEqual(self.path("d.img").stat().st_size, before + 40960)
                        with self.stopped_reader(words, rule) as reader:
                            daemon.process.send_signal(signal.SIGCONT)
                            self.assertEqual(client.answer(), Answer(FAULT))
                            self.assertEqual(self.path("d.img").stat().st_size, before)
                            reader.send_signal(signal.SIGCONT)
                            output, errors = reader.communicate(timeout=PATIENCE)
                        ran = Ran(reader.returncode, output, errors)
                        if ran != Ran(1, b"", b"udfburn: 64 Device\n"):
                            self.is_a_state(words, ran, 20, 20)
                        self.is_a_state(words, self.udfburn(*words), 20, 20)

    def test_beside_a_last_sync_that_fails(self) -> None:
        """A commit is whole in the file, and its last sync failed: a reader shows it, though it is answered 36, since it fails again when it is
        done anew. One that goes on when it was taken back, and another commit is after its other blocks, reports that state, or the one
        before, or that a block is not what it was. The next one reports the state."""
        need_shim()
        self.begin(7026, 20)
        taken = Request("replace", 7, 1, WATCHED, b"t" * 20_000)
        other = Request("create", 8, 1, "/other", b"o" * 60_000)
        whole, behind = self.states[20].copy(), self.states[20].copy()
        whole.answer(taken)
        answer = behind.answer(other)
        for words in self.READINGS:
            for place in (0.0, 0.5, 0.97, 1.0):
                with during("%r, at %.2f of its reads" % (words, place)):
                    self.fresh(capacity=400000)
                    self.apply(b"".join(encode(each) for each in self.requests))
                    with Daemon(self.folder, rules="fsync:3:E5;pwrite:5:H;fsync:7:E5") as daemon, daemon.client() as client:
                        client.send(encode(taken))
                        self.assertTrue(await_true(lambda: state_of(daemon.process.pid) == "T"), "nothing was cut")
                        self.states[21:] = [whole]
                        self.is_a_state(words, self.udfburn(*words, log=self.new_log()), 21, 21)
                        reads = sum(record.kind == "pread" for record in read_log(self.log_path()))
                        rule = "pread:%d:H" % max(1, round(place * reads))
                        with self.stopped_reader(words, rule) as reader:
                            daemon.process.send_signal(signal.SIGCONT)
                            self.assertEqual(client.answer(), Answer(FAULT))
                            self.is_a_state(words, self.udfburn(*words), 20, 20)
                            self.assertEqual(client.ask(encode(other)), answer)
                            reader.send_signal(signal.SIGCONT)
                            output, errors = reader.communicate(timeout=PATIENCE)
                    ran = Ran(reader.returncode, output, errors)
                    if ran.status:
                        self.assertRegex(errors, rb"^udfburn: (64 Device|67 Damaged block \d+ cause \d+)\n$")
                        self.assertEqual((ran.status, output), (1, b""))
                    else:
                        self.is_a_state(words, ran, 20, 21)
                    self.states[21:] = [behind]
                    self.is_a_state(words, self.udfburn(*words), 21, 21)

    def test_what_a_reader_shows_is_no_answer(self) -> None:
        """A program is killed before its last sync: readers show the commit, which no answer acknowledged, and a power loss takes it."""
        need_shim()
        before = self.fresh().read_bytes()
        request = Request("create", 7, 1, WATCHED, b"w" * 5000)
        ran = self.apply(encode(request), rules="fsync:3:K", log=self.new_log())
        self.assertEqual((ran.status, ran.output), (-signal.SIGKILL, b""))
        self.tell(self.udfburn("get", "d.img", WATCHED), 0, request.data, b"")
        self.assertEqual(self.sound(), 1)
        disk = Disk(before, 4096)
        for record in read_log(self.log_path()):
            disk.call(record)
        self.path("left.img").write_bytes(disk.left(lambda n: [False] * n, len(disk.disk)))
        self.assertEqual(self.sound("left.img"), 0)


class MayNotWrite(Reading):
    """An image that may not be written, in a folder that may not."""

    def setUp(self) -> None:
        super().setUp()
        self.begin(7024, 40)
        ran = self.apply(b"".join(encode(request) for request in self.requests))
        self.assertEqual(ran.status, 0)
        self.state = self.states[-1]

    def reads(self, run: Callable[[list[str]], Ran]) -> None:
        for words in Beside.READINGS:
            with self.subTest(words=words):
                self.is_a_state(words, run(words), 40, 40)

    def refused(self, run: Callable[[list[str]], Ran]) -> None:
        """Writers are refused, and the image stays as it is."""
        before = self.path("d.img").read_bytes()
        for words in (["apply", "d.img"], ["format", "d.img", "DISC", "0", "400000"], ["format", "new.img", "DISC", "0", "400000"]):
            with self.subTest(words=words):
                self.assertEqual(run(words), Ran(1, b"", b"udfburn: 64 Device\n"))
        self.assertEqual(self.path("d.img").read_bytes(), before)
        self.assertFalse(self.path("new.img").exists())

    def test_by_another_user(self) -> None:
        """Who is not the owner, and one whom the modes stop, is refused only where he writes."""
        self.path("d.img").chmod(0o444)
        self.folder.chmod(0o555)
        self.addCleanup(self.folder.chmod, 0o755)
        who = as_nobody()
        self.reads(lambda words: self.udfburn(*words, **who))
        self.refused(lambda words: self.udfburn(*words, stdin=query("list", "/"), **who))

    def test_that_may_not_be_read(self) -> None:
        self.path("d.img").chmod(0o200 if os.geteuid() == 0 else 0o000)
        for words in Beside.READINGS:
            with self.subTest(words=words):
                self.tell(self.udfburn(*words, **as_nobody()), 1, b"", b"udfburn: 64 Device\n")
        self.path("d.img").chmod(0o644)

    def test_a_folder_that_is_mounted_read_only(self) -> None:
        need_root()
        need_tools("unshare", "mount")
        before = self.path("d.img").read_bytes()

        def run(words: list[str]) -> Ran:
            shell = 'mount --bind . . && mount -o remount,bind,ro . . && cd "$PWD" && exec "$@"'
            return self.program(["unshare", "-m", "sh", "-c", shell, "sh", built().udfburn, *words], stdin=query("list", "/"))

        probe = self.program(["unshare", "-m", "sh", "-c", "mount --bind . . && mount -o remount,bind,ro . ."])
        if probe.status != 0:
            lacks("a folder cannot be mounted here: %r" % probe.errors)
        self.reads(run)
        self.refused(run)
        self.assertEqual(self.path("d.img").read_bytes(), before)

    def test_readers_leave_no_trace(self) -> None:
        """Nothing that a reader does is a write, a lock or a sync of the image."""
        need_shim()
        before = self.path("d.img").stat()
        for words in Beside.READINGS:
            with self.subTest(words=words):
                log = self.new_log()
                self.udfburn(*words, log=log)
                kinds = {record.kind for record in read_log(log)}
                self.assertIn("pread", kinds)
                self.assertEqual(kinds & {"pwrite", "ftruncate", "flock", "foldersync"}, set())
                opened = [record for record in read_log(log) if record.kind == "open"]
                self.assertEqual([record.offset & os.O_ACCMODE for record in opened], [os.O_RDONLY])
        behind = self.path("d.img").stat()
        self.assertEqual((before.st_mtime_ns, before.st_size), (behind.st_mtime_ns, behind.st_size))


if __name__ == "__main__":
    unittest.main()
