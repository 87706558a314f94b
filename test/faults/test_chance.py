"""Faults of several kinds together, as a die falls: failing calls and kills over some processes, and power that is lost at the end.

Two things are tried on a real disk alone (test_disk.py), since only the system knows what it dropped and reads anew: a process that
ends between a failure and the cut of the file, and a sync of an opening that fails after a kill. Runs where they happen are held
against the tree alone, and not against the power loss.
"""
from __future__ import annotations

import errno
import random
from typing import Optional, Sequence

from faults.calls import Discipline, told_by
from faults.case import Case, need_shim
from faults.log import Record, read_log
from faults.pages import Disk, losses
from faults.running import Daemon
from protocol import FAULT, Answer, Model, Request, answers_of, encode, paths_of, questions

SEED = 20261123
ROUNDS = 60
CAPACITY = 1500


def some_requests(chance: random.Random, count: int) -> list[Request]:
    """Requests of two clients, some of which are refused."""
    numbers = {1: 0, 2: 0}
    paths = ["/a", "/b", "/d", "/d/x", "/d/y", "/e"]
    found = []
    for _ in range(count):
        client = chance.choice((1, 2))
        numbers[client] += 1
        kind = chance.choice(("create", "create", "create", "replace", "mkdir", "mkdir", "rename", "remove"))
        data = bytes([chance.randrange(256)]) * chance.choice((0, 5, 1872, 1873, 9000, 70000)) if kind in ("create", "replace") else b""
        to = chance.choice(paths) if kind == "rename" else ""
        found.append(Request(kind, client, numbers[client], chance.choice(paths), data, to))
    return found


def some_rules(chance: random.Random) -> str:
    """Some faults of one process, and at times its end."""
    rules = []
    for _ in range(chance.choice((0, 1, 1, 2, 3))):
        kind = chance.choice(("pwrite", "pwrite", "fsync", "fsync", "ftruncate", "pread", "fstat"))
        first = chance.randrange(1, 4 if kind == "ftruncate" else 24) + (262 if kind == "pread" else 1 if kind == "fsync" else 0)
        which = chance.choice(("%d" % first, "%d-%d" % (first, first + chance.randrange(3))))
        errors = {"pwrite": ("E5", "E28", "A5", "P700E28", "P2500E5", "S100", "E4"), "fsync": ("E5", "A5", "E4"), "pread": ("E5", "S9")}
        rules.append("%s:%s:%s" % (kind, which, chance.choice(errors.get(kind, ("E5",)))))
    if chance.random() < 0.6:
        kind = chance.choice(("pwrite", "fsync", "send", "recv"))
        rules.append("%s:%d:%s" % (kind, chance.randrange(1, 20), chance.choice("Kk")))
    return ";".join(rules)


def is_left_to_the_disk(records: Sequence[Record]) -> bool:
    """Whether a process ended between a failure and the cut, or its first sync failed while something was unsynced."""
    disk_is_dirty, process, must_cut, is_opened = False, -1, False, False
    for record in records:
        if record.process != process:
            if must_cut:
                return True
            process, is_opened = record.process, False
        failed = record.error not in (0, errno.EINTR)
        if record.kind == "pwrite":
            disk_is_dirty = disk_is_dirty or record.result > 0
            must_cut = must_cut or failed
        elif record.kind == "ftruncate":
            disk_is_dirty = True
        elif record.kind == "fsync" and failed:
            if not is_opened and disk_is_dirty:
                return True
            must_cut = must_cut or is_opened
        elif record.kind == "fsync" and not record.error:
            disk_is_dirty, must_cut, is_opened = False, False, True
    return must_cut


class Chance(Case):
    def setUp(self) -> None:
        super().setUp()
        need_shim()

    def served(self, requests: Sequence[Request], rules: str, answers: list[Answer]) -> None:
        """A daemon under these rules gets the requests from the first one without an answer on, up to its end."""
        with Daemon(self.folder, log=self.log_path(), rules=rules) as daemon:
            try:
                client = daemon.client()
            except (AssertionError, ConnectionError):
                # It ended before it listened: killed, or refused by a sync that failed.
                self.assertIn(daemon.process.wait(), (-9, 1))
                return
            with client:
                patience = 40
                while len(answers) < len(requests) and patience:
                    answer: Optional[Answer] = client.ask(encode(requests[len(answers)]))
                    if answer is None:
                        return
                    if answer == Answer(FAULT):
                        patience -= 1
                    else:
                        answers.append(answer)

    def round(self, seed: int) -> bool:
        chance = random.Random(seed)
        requests = some_requests(chance, chance.randrange(3, 9))
        states = [Model()]
        wanted = []
        for request in requests:
            model = states[-1].copy()
            wanted.append(model.answer(request))
            states.append(model)
        before = self.fresh(capacity=CAPACITY).read_bytes()
        self.new_log()
        answers: list[Answer] = []
        for rules in [some_rules(chance) for _ in range(chance.randrange(1, 4))] + [""]:
            self.served(requests, rules, answers)
        self.assertEqual(answers, wanted)
        paths = paths_of(requests)
        self.tree_is(states[-1], paths)
        records = read_log(self.log_path())
        self.assertEqual(Discipline(len(before), self.folder).follow(records, daemon=True).faults, [])
        if is_left_to_the_disk(records):
            return False
        said = {index: answer.commit for index, answer in told_by(records, True) if answer.is_commit}
        told = [state.told(paths) for state in states]
        points = {index for index in range(len(records)) if records[index].kind in ("pwrite", "fsync", "ftruncate", "send")}
        looked = set(chance.sample(sorted(points), min(8, len(points)))) | {max(points)}
        disk, acknowledged = Disk(before, chance.choice((2048, 4096)), chance), 0
        for index, record in enumerate(records):
            disk.call(record)
            acknowledged = max(acknowledged, said.get(index, 0))
            if index not in looked:
                continue
            found = list(losses(disk, chance, 3))
            for loss in chance.sample(found, min(3, len(found))):
                how = "call %d (%s), %s" % (index, record.kind, loss.how)
                self.path("left.img").write_bytes(loss.content)
                commits = self.sound("left.img")
                self.assertGreaterEqual(commits, acknowledged, how)
                ran = self.apply(questions(paths), "left.img")
                self.assertEqual(answers_of(ran.output), told[commits], how)
        return True

    def test_rounds(self) -> None:
        whole = 0
        for number in range(ROUNDS):
            with self.subTest(seed=SEED + number):
                whole += self.round(SEED + number)
        self.assertGreater(whole, ROUNDS // 2)
