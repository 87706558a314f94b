"""A daemon that is killed, stopped or told to end in the middle of commits: each request is done once, and what was acknowledged stays.

The model is that of py, which knows nothing of blocks. After each end it must agree, for one count of commits that is not
below what was acknowledged and not above what was sent.
"""
from __future__ import annotations

import random
import signal
import threading
import time
import unittest
from typing import Optional

from faults.case import need_shim
from faults.load_support import PATHS, Applying, Case, Die, connect_or_none, counted, during, has_shim, listing, log_lines
from faults.processes import await_true, state_of, stop
from faults.running import Client, Daemon
from protocol import Answer, Model, Request, answers_of, encode, query, questions

QUESTIONS = ["/"] + PATHS
# How many requests go out before their answers are read: a client's last four replies are kept.
MOST_AT_ONCE = 4


class Run(Case):
    """A stream of requests that goes on over the ends of its daemon."""

    def begin(self, seed: int) -> None:
        self.fresh(capacity=400000)
        self.die = Die(seed)
        self.fall = random.Random(seed + 1)
        # The state after the last request whose answer came, and what was sent after it.
        self.model = Model()
        self.sent: list[Request] = []
        # The last requests that were answered.
        self.answered: list[Request] = []

    def ahead(self) -> list[Model]:
        """The states after the answered requests, and after each that was sent since."""
        states = [self.model]
        for request in self.sent:
            state = states[-1].copy()
            state.answer(request)
            states.append(state)
        return states

    def came(self, answer: Answer) -> None:
        """The answer to the oldest request without one."""
        request = self.sent.pop(0)
        self.assertEqual(answer, self.model.answer(request), "the answer to %r" % (request,))
        self.answered = (self.answered + [request])[-8:]

    def send(self, client: Client, count: int) -> bool:
        """Sends so many requests and reads their answers. Whether all came."""
        last = self.ahead()[-1].copy()
        frames = b""
        for _ in range(count):
            request = self.die.request(last)
            last.answer(request)
            self.sent.append(request)
            frames += encode(request)
        try:
            client.send(frames)
        except (BrokenPipeError, ConnectionResetError):
            pass
        while self.sent:
            answer = client.answer()
            if answer is None:
                return False
            self.came(answer)
        return True

    def stream(self, client: Client, most: int) -> bool:
        """Requests in bunches until the daemon is gone, or so many were answered."""
        for _ in range(most):
            if not self.send(client, self.fall.randint(1, MOST_AT_ONCE)):
                return False
        return True

    def look(self) -> None:
        """The image as readers find it: a state between what was acknowledged and what was sent. What else was done is answered."""
        ran = self.udfburn("log", "d.img")
        self.assertEqual((ran.status, ran.errors), (0, b""))
        lines = log_lines(ran)
        commits = lines[0][0]
        self.assertEqual([line[0] for line in lines], list(range(commits, -1, -1)))
        states = self.ahead()
        self.assertLessEqual(states[0].commits, commits, "an acknowledged request is lost")
        self.assertLessEqual(commits, states[-1].commits)
        state = states[commits - states[0].commits]
        self.assertEqual(lines[0][2:], counted(state))
        ran = self.udfburn("ls", "d.img", "/")
        self.tell(ran, 0, listing(state, "/"), b"")
        self.committed = state

    def again(self, client: Client) -> None:
        """The tree is that of the state, and each of the last requests is repeated by its number: what was done has its reply, what
        was not is done now, once."""
        state = self.committed
        client.send(questions(QUESTIONS))
        for path in QUESTIONS:
            self.assertEqual([client.answer(), client.answer()], [state.get(path), state.names(path)], path)
        for request in self.answered + self.sent:
            before = state.commits
            expected = state.answer(request)
            self.assertLessEqual(state.commits, before + 1)
            self.assertEqual(client.ask(encode(request)), expected, "the repeat of %r" % (request,))
        for request in self.sent:
            self.model.answer(request)
        self.answered = (self.answered + self.sent)[-8:]
        self.sent = []
        self.assertEqual(self.model.commits, state.commits)

    def at_the_end(self) -> None:
        self.tree_is(self.model, QUESTIONS)
        ran = self.udfburn("log", "d.img")
        self.assertEqual(log_lines(ran)[0][2:], counted(self.model))
        self.assertEqual(self.udfburn("check", "d.img").output, b"sound %d\n" % self.model.commits)


class Kills(Run):
    def one(self, rules: str, delay: Optional[float], before: int = 0) -> bool:
        """A daemon from its start to its kill, by a rule or after so many bunches and a delay. Whether a rule killed it."""
        with Daemon(self.folder, rules=rules) as daemon:
            client = connect_or_none(daemon)
            if client is not None:
                timer = threading.Timer(delay, daemon.process.kill) if delay is not None else None
                with client:
                    try:
                        if timer is not None:
                            self.assertTrue(self.stream(client, before))
                            timer.start()
                        by_rule = not self.stream(client, 12 if timer is None else 1 << 20)
                    finally:
                        if timer is not None:
                            timer.cancel()
            else:
                by_rule = True
            daemon.kill()
            self.assertEqual(daemon.process.returncode, -signal.SIGKILL)
            self.assertEqual(daemon.errors(), b"")
        self.look()
        with Daemon(self.folder) as daemon:
            with daemon.client() as client:
                self.again(client)
            # The next one is killed with nothing in hand.
            daemon.kill()
        return by_rule and delay is None

    def test_kills_at_any_moment(self) -> None:
        seed = 7001
        self.begin(seed)
        slow = "fsync:*:D1" if has_shim() else ""
        for number in range(150):
            with during("seed %d, kill %d" % (seed, number)):
                # Half of them from the first moment on, the others where the stream goes on, however slow the machine is.
                self.one(slow if number % 3 == 0 else "", self.fall.uniform(0, 0.03), 5 * (number % 2))
        self.at_the_end()
        # Two kills a round; the stream must have gone on between them.
        self.assertGreater(self.model.commits, 300)

    def test_kills_at_chosen_calls(self) -> None:
        need_shim()
        seed = 7002
        self.begin(seed)
        by_rule = 0
        calls = [("fsync", 12), ("pwrite", 12), ("pread", 12), ("send", 4), ("recv", 4), ("open", 1), ("accept", 1), ("fstat", 6)]
        for number in range(150):
            call, most = calls[number % len(calls)]
            if number < 24:
                # Each call at its very first, in the opening too.
                which = 1 + number // len(calls)
            else:
                which = self.fall.randint(1, most)
            action = self.fall.choice(["K", "k", "P1000K", "P2048K", "P5000K"] if call == "pwrite" else ["K", "k"])
            rules = "%s:%d:%s" % (call, which, action)
            with during("seed %d, rule %s" % (seed, rules)):
                by_rule += self.one(rules, None)
        self.at_the_end()
        self.assertGreater(by_rule, 80)


class Signals(Run):
    def test_signals_that_end_it(self) -> None:
        seed = 7003
        self.begin(seed)
        for number in range(30):
            which = (signal.SIGTERM, signal.SIGINT, signal.SIGHUP)[number % 3]
            with during("seed %d, %s" % (seed, which)), Daemon(self.folder) as daemon:
                with daemon.client() as client:
                    timer = threading.Timer(self.fall.uniform(0, 0.02), daemon.process.send_signal, [which])
                    timer.start()
                    self.assertFalse(self.stream(client, 1 << 20))
                self.assertEqual(daemon.wait(), -which)
                self.assertEqual(daemon.errors(), b"")
                daemon.path.unlink()
                self.look()
                with Daemon(self.folder) as next_one, next_one.client() as client:
                    self.again(client)
        self.at_the_end()

    def test_a_broken_pipe_does_not_end_it(self) -> None:
        self.begin(7004)
        with Daemon(self.folder) as daemon:
            with daemon.client() as client:
                for _ in range(20):
                    daemon.process.send_signal(signal.SIGPIPE)
                    self.assertTrue(self.stream(client, 2))
            self.assertIsNone(daemon.process.poll())
            self.assertEqual(daemon.errors(), b"")
        self.at_the_end()

    def test_stopped_and_continued(self) -> None:
        self.begin(7005)
        rules = "fsync:7:H;pwrite:9:H;pwrite:20:H;send:12:H;pread:30:H" if has_shim() else ""
        stops = 0
        with Daemon(self.folder, rules=rules) as daemon:
            finished = threading.Event()

            def wake() -> None:
                """Stops it at any moment, and wakes it whoever stopped it."""
                nonlocal stops
                while not finished.is_set() and daemon.process.poll() is None:
                    if state_of(daemon.process.pid) != "T":
                        stop(daemon.process.pid)
                    stops += 1
                    time.sleep(0.004)
                    daemon.process.send_signal(signal.SIGCONT)
                    time.sleep(0.004)

            waker = threading.Thread(target=wake)
            waker.start()
            try:
                with daemon.client() as client:
                    self.assertTrue(self.stream(client, 150))
                    # However fast the machine is.
                    while stops <= 5:
                        self.assertTrue(self.stream(client, 10))
            finally:
                finished.set()
                waker.join()
                if daemon.process.poll() is None:
                    daemon.process.send_signal(signal.SIGCONT)
            self.assertEqual(daemon.errors(), b"")
        self.assertGreater(stops, 5)
        self.look()
        self.at_the_end()

    def test_stopped_while_it_waits(self) -> None:
        """A wait for a connection, for a client's bytes or for room for an answer goes on where it is woken."""
        self.begin(7008)

        def rest(daemon: Daemon) -> None:
            for _ in range(3):
                # In the call, and not before it.
                time.sleep(0.02)
                self.assertTrue(await_true(lambda: state_of(daemon.process.pid) == "S"))
                stop(daemon.process.pid)
                daemon.process.send_signal(signal.SIGCONT)

        with Daemon(self.folder, "d.img", "--connections", "2") as daemon:
            self.assertTrue(await_true(daemon.path.is_socket))
            rest(daemon)
            with daemon.client() as client:
                rest(daemon)
                large = Request("create", 9, 1, "/large", b"l" * 1_000_000)
                self.assertEqual(client.ask(encode(large)), self.model.answer(large))
                rest(daemon)
                client.send(query("get", "/large") * 8)
                rest(daemon)
                for _ in range(8):
                    self.assertEqual(client.answer(), self.model.get("/large"))
            with daemon.client() as client:
                self.assertTrue(self.stream(client, 3))
            self.assertEqual(daemon.wait(), 0)
            self.assertEqual(daemon.errors(), b"")
        self.at_the_end()

    def test_while_it_is_stopped_what_was_acknowledged_stands(self) -> None:
        need_shim()
        for rule in ("pwrite:1:H", "pwrite:2:H", "fsync:2:H", "fsync:3:H", "send:1:H"):
            with self.subTest(rule=rule):
                self.begin(7006)
                with Daemon(self.folder, rules=rule) as daemon, daemon.client() as client:
                    last = self.ahead()[-1].copy()
                    for _ in range(3):
                        request = self.die.request(last)
                        last.answer(request)
                        self.sent.append(request)
                        client.send(encode(request))
                    self.assertTrue(await_true(lambda: state_of(daemon.process.pid) == "T"), "the rule came to nothing")
                    # Readers see what is there, as it is, while the writer rests.
                    self.look()
                    daemon.process.send_signal(signal.SIGCONT)
                    while self.sent:
                        answer = client.answer()
                        assert answer is not None
                        self.came(answer)
                    self.committed = self.model.copy()
                    self.again(client)
                self.at_the_end()

    def test_an_apply_that_is_ended(self) -> None:
        for which in (signal.SIGTERM, signal.SIGINT, signal.SIGHUP, signal.SIGKILL):
            with self.subTest(which=which):
                self.begin(7007)
                for number in range(8):
                    party = Applying(self.folder, number)
                    try:
                        timer = threading.Timer(self.fall.uniform(0, 0.015), party.process.send_signal, [which])
                        timer.start()
                        last = self.ahead()[-1].copy()
                        while True:
                            request = self.die.request(last)
                            last.answer(request)
                            self.sent.append(request)
                            party.give(encode(request))
                            answer = party.take()
                            if answer is None:
                                break
                            self.came(answer)
                        self.assertEqual(party.process.wait(), -which)
                    finally:
                        party.kill()
                    self.look()
                    ran = self.apply(b"".join(encode(request) for request in self.answered + self.sent))
                    self.assertEqual(ran.status, 0)
                    expected = [self.committed.answer(request) for request in self.answered + self.sent]
                    self.assertEqual(answers_of(ran.output), expected)
                    for request in self.sent:
                        self.model.answer(request)
                    self.answered, self.sent = (self.answered + self.sent)[-8:], []
                self.at_the_end()


if __name__ == "__main__":
    unittest.main()
