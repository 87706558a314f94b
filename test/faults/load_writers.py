"""Two writers of one image, asked at the same moment: exactly one gets it, the other writes nothing, and nothing acknowledged is lost."""
from __future__ import annotations

import os
import signal
import subprocess
import threading
import unittest
from typing import Callable, Optional

from faults.case import FORMATTED_BLOCKS
from faults.load_support import Applying, Case, Serving, Writer, during, has_shim, log_lines
from faults.log import read_log
from faults.processes import PATIENCE, await_true, state_of
from faults.programs import built
from faults.running import Ran, environment
from protocol import BLOCK, NAMES, Answer, Model, Request, answers_of, encode, paths_of, query

# Where both writers wait for each other: nowhere, before they look at the image, and before they ask for the lock.
GATES = ["", "open:1:H", "flock:1:H"]


class Round(Case):
    """Rounds on one image, each of which adds to what the model has."""

    def setUp(self) -> None:
        super().setUp()
        self.model = Model()
        self.requests: list[Request] = []

    def request(self, client: int) -> Request:
        """The next request of a client, which makes a file of its own."""
        number = self.model.latest.get(client, 0) + 1
        data = b"%d.%d" % (client, number) * 400 * (number % 3)
        request = Request("create", client, number, "/c%d.%d" % (client, number), data)
        self.requests.append(request)
        return request

    def release(self, parties: list[Writer], gate: str) -> None:
        """Lets both go on from where they stopped, at once."""
        if gate and has_shim():
            for party in parties:
                # A program that makes no such call does not stop, and is found out by what it does.
                await_true(lambda: state_of(party.process.pid) in "TZ", 1.0, 0.0002)
            for party in parties:
                os.kill(party.process.pid, signal.SIGCONT)

    def wake(self, parties: list[Writer], done: threading.Event) -> None:
        """Lets those go on who stopped late."""
        while not done.wait(0.02):
            for party in parties:
                if state_of(party.process.pid) == "T":
                    party.process.send_signal(signal.SIGCONT)

    def compete(self, kinds: list[type], gate: str, number: int, then: str) -> None:
        """A round: two writers, a request to each, and the winner ends or is killed."""
        log = self.new_log() if has_shim() else None
        rules = gate if has_shim() else ""
        parties: list[Writer] = []
        done = threading.Event()
        waker = threading.Thread(target=self.wake, args=(parties, done))
        try:
            for place, kind in enumerate(kinds):
                parties.append(kind(self.folder, 2 * number + place, log=log, rules=rules))
            self.release(parties, gate)
            waker.start()
            requests = [self.request(client) for client in (1, 2)]
            for party, request in zip(parties, requests):
                party.give(encode(request))
            answers = [party.take() for party in parties]
            served = [place for place, answer in enumerate(answers) if answer is not None]
            self.assertEqual(len(served), 1, "answers: %r" % answers)
            winner, loser = parties[served[0]], parties[1 - served[0]]
            self.assertEqual(answers[served[0]], self.model.answer(requests[served[0]]))
            self.requests.remove(requests[1 - served[0]])
            self.assertEqual(loser.process.wait(PATIENCE), 1)
            self.assertEqual(loser.errors(), b"%s: 64 Device\n" % loser.name.encode())
            if isinstance(loser, Serving):
                self.assertFalse(loser.daemon.path.exists(), "a daemon that has no image made its socket")
            if log is not None:
                written = [record.kind for record in read_log(log)
                           if record.process == loser.process.pid and record.kind in ("pwrite", "ftruncate")]
                self.assertEqual(written, [])
            self.meanwhile(winner, number)
            if then == "kill":
                winner.kill()
            else:
                self.assertEqual(winner.end(), 0)
        finally:
            done.set()
            if waker.is_alive():
                waker.join()
            for party in parties:
                party.kill()
        self.free_again()

    def meanwhile(self, winner: Writer, number: int) -> None:
        """While the winner holds the image others are refused, and it goes on."""
        request = self.request(3)
        words = [("apply", "d.img"), ("format", "d.img", "DISC", "0", "60000"), ("format", "d.img", "OTHER", "0", "60000")][number % 3]
        before = self.path("d.img").read_bytes()
        self.tell(self.udfburn(*words, stdin=encode(request)), 1, b"", b"udfburn: 64 Device\n")
        self.assertEqual(self.path("d.img").read_bytes(), before, "%r wrote an image that another holds" % (words,))
        winner.give(encode(request))
        self.assertEqual(winner.take(), self.model.answer(request))

    def free_again(self) -> None:
        """The lock went with its holder, and the last files are there."""
        request = self.request(4)
        last = self.requests[-3:]
        ran = self.apply(encode(request) + b"".join(query("get", each.path) for each in last))
        expected = [self.model.answer(request)] + [self.model.get(each.path) for each in last]
        self.assertEqual((ran.status, ran.errors), (0, b""))
        self.assertEqual(answers_of(ran.output), expected)

    def all_is_there(self) -> None:
        self.tree_is(self.model, paths_of(self.requests))
        ran = self.udfburn("log", "d.img")
        self.assertEqual([line[0] for line in log_lines(ran)], list(range(self.model.commits, -1, -1)))

    def rounds(self, kinds: list[type], count: int) -> None:
        # Three files a round, and a directory has at most 512 names.
        self.fresh(capacity=60000)
        for number in range(count):
            with during("round %d" % number):
                self.compete(kinds, GATES[number % 3], number, "kill" if number % 2 else "end")
        self.all_is_there()


class Writers(Round):
    def test_two_daemons(self) -> None:
        self.rounds([Serving, Serving], 50)

    def test_an_apply_and_a_daemon(self) -> None:
        self.rounds([Applying, Serving], 25)

    def test_a_daemon_and_an_apply(self) -> None:
        self.rounds([Serving, Applying], 25)

    def test_two_applies(self) -> None:
        self.rounds([Applying, Applying], 50)


class Formats(Case):
    """Two formats of one new image by other words."""

    def alone(self, label: str) -> bytes:
        """The volume that these words make where nothing disturbs them."""
        self.tell(self.udfburn("format", "alone.img", label, "7", "900"), 0, b"formatted\n", b"")
        found = self.path("alone.img").read_bytes()
        self.path("alone.img").unlink()
        self.assertEqual(len(found), FORMATTED_BLOCKS * BLOCK)
        return found

    def start(self, label: str, rules: str) -> subprocess.Popen[bytes]:
        return subprocess.Popen([built().udfburn, "format", "d.img", label, "7", "900"], cwd=self.folder, stdin=subprocess.DEVNULL,
                                stdout=subprocess.PIPE, stderr=subprocess.PIPE, env=environment("d.img", None, rules))

    def test_two_formats(self) -> None:
        alone = {label: self.alone(label) for label in ("ONE", "TWO")}
        overlapped = 0
        for number in range(50):
            # Free, both stopped where the image is made, and the one that has it stopped at a sync until the other one has ended.
            rules = ["", "open:1:H", "fsync:%d:H", "open:1:H;fsync:%d:H"][number % 4] if has_shim() else ""
            rules = rules.replace("%d", str(1 + number % 3))
            with during("round %d, rules '%s'" % (number, rules)):
                self.path("d.img").unlink(missing_ok=True)
                if number % 8 >= 4:
                    self.path("d.img").touch()
                both = {label: self.start(label, rules) for label in alone}
                for _ in range(rules.count("H")):
                    for process in both.values():
                        self.assertTrue(await_true(lambda: state_of(process.pid) in "TZ", pause=0.0002))
                    for process in both.values():
                        os.kill(process.pid, signal.SIGCONT)
                ran = {}
                for label, process in both.items():
                    output, errors = process.communicate(timeout=PATIENCE)
                    ran[label] = Ran(process.returncode, output, errors)
                winners = [label for label in ran if ran[label] == Ran(0, b"formatted\n", b"")]
                self.assertEqual(len(winners), 1, "%r" % ran)
                refused = {ran[label] for label in ran if label not in winners}
                # Without a wait one of them may come when the other has ended.
                may = {Ran(1, b"", b"udfburn: 64 Device\n")} | (set() if "fsync" in rules else {Ran(1, b"", b"udfburn: 61 NotBlank\n")})
                self.assertLessEqual(refused, may)
                overlapped += refused == {Ran(1, b"", b"udfburn: 64 Device\n")}
                self.assertEqual(self.path("d.img").read_bytes(), alone[winners[0]])
        if has_shim():
            self.assertGreaterEqual(overlapped, 24)


class Lock(Case):
    """The lock goes with its holder, however that ends, and with nothing else."""

    def held(self, number: int, kind: Callable[..., Writer], end: Callable[[Writer], Optional[int]]) -> None:
        party = kind(self.folder, number)
        try:
            party.give(query("list", "/"))
            self.assertEqual(party.take(), Answer(NAMES, b"\0\0"))
            self.tell(self.apply(b""), 1, b"", b"udfburn: 64 Device\n")
            # Readers take none, and do not end the holder's.
            self.tell(self.udfburn("ls", "d.img", "/"), 0, b"", b"")
            self.tell(self.apply(b""), 1, b"", b"udfburn: 64 Device\n")
            # A name is not the file: another name of it is refused as well.
            os.link(self.path("d.img"), self.path("other.img"))
            self.tell(self.apply(b"", image="other.img"), 1, b"", b"udfburn: 64 Device\n")
            self.path("other.img").unlink()
            end(party)
            self.tell(self.apply(b""), 0, b"", b"")
        finally:
            party.kill()

    def test_each_end_of_a_holder(self) -> None:
        self.fresh()

        def signalled(which: int) -> Callable[[Writer], Optional[int]]:
            def end(party: Writer) -> Optional[int]:
                party.process.send_signal(which)
                return party.process.wait(PATIENCE)
            return end

        ends: list[Callable[[Writer], Optional[int]]] = [lambda party: party.end(), lambda party: party.kill()]
        ends += [signalled(which) for which in (signal.SIGKILL, signal.SIGTERM, signal.SIGINT, signal.SIGHUP)]
        for number, end in enumerate(ends):
            for place, kind in enumerate((Applying, Serving)):
                with self.subTest(end=number, kind=kind.name):
                    self.held(2 * number + place, kind, end)


if __name__ == "__main__":
    unittest.main()
