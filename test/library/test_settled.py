"""Requests between `udfburn_begin` and `udfburn_settle`: what they cost, and what is left where the group is cut off or calls of the system
fail."""
from __future__ import annotations

import signal
import subprocess
from typing import Dict, List, Tuple

from faults.log import Record, read_log
from faults.programs import HERE as FAULTS
from faults.programs import compile_shim
from library.building import CLANG, GPP, PATIENCE
from library.running import VALGRIND, Running

# A group with this many requests comes after one with as many, which was settled.
COUNT = 5
BLOCK = 2048
CALLS = ("pwrite", "fsync", "ftruncate")
# What a file cannot have: an error of the device, no room on the disk, or a call that is done and fails.
FAILURES = (("pwrite", "E5"), ("pwrite", "P1000E28"), ("pwrite", "A5"), ("fsync", "E5"), ("fsync", "A5"), ("ftruncate", "E5"))


class Settled(Running):
    def setUp(self) -> None:
        super().setUp()
        compile_shim(FAULTS / "shim.c", self.folder / "shim.so")
        self.program = self.compiled("settled.c", CLANG, "libudfburn_drive.a")
        made = self.udfburn("format", "new.img", "DISC", "0", "3000")
        self.assertEqual((made.returncode, made.stderr), (0, b""))
        self.new = (self.folder / "new.img").read_bytes()

    def run_on_new(self, program: str, count: int, groups: int, rules: str = "", *more: str) -> "subprocess.CompletedProcess[str]":
        """Sends requests to a new volume, with a log of the calls."""
        (self.folder / "d.img").write_bytes(self.new)
        (self.folder / "calls").unlink(missing_ok=True)
        faults = {"LD_PRELOAD": str(self.folder / "shim.so"), "FAULT_IMAGE": "d.img", "FAULT_RULES": rules,
                  "FAULT_LOG": str(self.folder / "calls")}
        return subprocess.run([program, "d.img", str(count), str(groups), *more], cwd=self.folder, capture_output=True, text=True,
                              timeout=PATIENCE, env=self.environment(**faults))

    def sent(self, count: int, groups: int, rules: str = "") -> "subprocess.CompletedProcess[str]":
        return self.run_on_new(self.program, count, groups, rules)

    def settled(self, count: int, groups: int) -> List[Record]:
        """The calls of groups that are settled at once."""
        done = self.sent(count, groups)
        self.assertEqual((done.returncode, done.stdout, done.stderr), (0, "." * groups, ""))
        self.assertEqual(self.found(), [count * groups] * 3)
        return read_log(self.folder / "calls")

    def found(self) -> List[int]:
        """How many commits a reader and a writer find, and the last number of the client."""
        return [int(word) for word in self.ran(self.program, "d.img").split()]

    def counts(self, records: List[Record]) -> Dict[str, Tuple[int, int]]:
        """How many calls of each kind the opening makes, before the first write of blocks, and how many there are in all."""
        first = next(index for index, record in enumerate(records) if record.kind == "pwrite")
        return {kind: (sum(record.kind == kind for record in records[:first]), sum(record.kind == kind for record in records)) for kind in CALLS}


class Calls(Settled):
    def test_what_they_do(self) -> None:
        for compiler, archive in ((CLANG, "libudfburn_drive.a"), (GPP, "libudfburn.so")):
            with self.subTest(str(compiler)):
                self.passes("settled.c", self.compiled("settled.c", compiler, archive))

    def test_under_valgrind(self) -> None:
        self.passes("settled.c", self.program, VALGRIND)

    def test_under_sanitizers(self) -> None:
        self.passes("settled.c", self.compiled("settled.c", CLANG, "libudfburn_drive.a", watched=True))


class Syncs(Settled):
    def test_syncs(self) -> None:
        """Two for a group, also of 64 requests. A longer one is several, and one without a request takes none."""
        for count, groups, wanted in ((1, 1, 2), (64, 1, 2), (65, 1, 4), (128, 1, 4), (1, 20, 40), (20, 3, 6), (0, 5, 0)):
            with self.subTest(count=count, groups=groups):
                records = self.settled(count, groups) if count else self.empty(groups)
                self.assertEqual(sum(record.kind == "fsync" for record in records) - 1, wanted)

    def empty(self, groups: int) -> List[Record]:
        done = self.sent(0, groups)
        self.assertEqual((done.returncode, done.stdout, done.stderr), (0, "." * groups, ""))
        self.assertEqual((self.folder / "d.img").read_bytes(), self.new)
        return read_log(self.folder / "calls")

    def test_the_same_as_messages_together(self) -> None:
        """A group makes the calls of the system that messages make which come together, in the same order and with the same bytes. So what
        a loss of power leaves of those it leaves of a group: test_groups tries that."""
        together = self.compiled("grouped.c", CLANG)
        for count, groups in ((64, 1), (20, 3), (1, 5)):
            with self.subTest(count=count, groups=groups):
                ours = [self.told(record) for record in self.settled(count, groups)]
                done = self.run_on_new(together, count, groups)
                self.assertEqual((done.returncode, done.stdout), (0, "." * groups))
                theirs = [self.told(record) for record in read_log(self.folder / "calls")]
                self.assertEqual([call for call in ours if call[0] in CALLS], [call for call in theirs if call[0] in CALLS])

    @staticmethod
    def told(record: Record) -> Tuple[object, ...]:
        return (record.kind, record.offset, record.length, record.data)


class Lost(Settled):
    def test_killed_at_each_call(self) -> None:
        """What was settled is there. Of the group that was cut off all is there or nothing, and a reader sees what a writer finds."""
        counts = self.counts(self.settled(COUNT, 2))
        for kind, (_, count) in counts.items():
            for number in range(1, count + 1):
                for action in ("K", "k", "P1000K") if kind == "pwrite" else ("K", "k"):
                    rules = "%s:%d:%s" % (kind, number, action)
                    with self.subTest(rules):
                        done = self.sent(COUNT, 2, rules)
                        self.assertEqual((done.returncode, done.stderr), (-signal.SIGKILL, ""))
                        read, written, last = self.found()
                        self.assertEqual((read, last), (written, written))
                        self.assertIn(written, (0, COUNT, 2 * COUNT))
                        self.assertGreaterEqual(written, COUNT * len(done.stdout))
                        self.assertEqual(self.udfburn("check", "d.img").stdout, b"sound %d\n" % written)

    def test_each_call_fails(self) -> None:
        """A group that the disk cannot have is taken back, and says so. Its requests run once when they are sent again."""
        counts = self.counts(self.settled(COUNT, 2))
        wanted = (self.folder / "d.img").read_bytes()
        lost = 0
        for kind, action in FAILURES:
            opening, count = counts[kind]
            for number in range(opening + 1, count + 1):
                rules = "%s:%d:%s" % (kind, number, action)
                with self.subTest(rules):
                    done = self.sent(COUNT, 2, rules)
                    self.assertEqual((done.returncode, done.stdout.replace("!", ""), done.stderr), (0, "..", ""))
                    self.assertLessEqual(done.stdout.count("!"), 1)
                    lost += done.stdout.count("!")
                    self.assertEqual(self.found(), [2 * COUNT] * 3)
                    self.assertEqual((self.folder / "d.img").read_bytes()[:len(wanted)], wanted)
        self.assertGreater(lost, 4 * COUNT)

    def test_each_call_fails_from_one_on(self) -> None:
        """Nothing of a group that was never settled is there, and all of those that were."""
        counts = self.counts(self.settled(COUNT, 2))
        for kind, action in FAILURES:
            opening, count = counts[kind]
            for number in range(opening + 1, count + 1):
                rules = "%s:%d+:%s" % (kind, number, action)
                with self.subTest(rules):
                    done = self.sent(COUNT, 2, rules)
                    self.assertEqual((done.returncode, done.stderr), (0, ""), done.stdout)
                    read, written, last = self.found()
                    self.assertEqual((read, last), (written, written))
                    settled = COUNT * done.stdout.count(".")
                    # A cut that fails may leave what the disk had got of the group.
                    self.assertIn(written, (settled, settled + COUNT))

    def test_closed_before_it_is_settled(self) -> None:
        """Nothing of the group is there, whatever call of the group or of the close fails or is the last."""
        self.settled(COUNT, 1)
        whole = (self.folder / "d.img").read_bytes()
        begun = {kind: count for kind, (_, count) in self.counts(read_log(self.folder / "calls")).items()}
        done = self.run_on_new(self.program, COUNT, 1, "", "open")
        self.assertEqual((done.returncode, done.stdout), (0, "."))
        self.assertEqual((self.folder / "d.img").read_bytes(), whole)
        counts = {kind: count for kind, (_, count) in self.counts(read_log(self.folder / "calls")).items()}
        self.assertGreater(counts["ftruncate"], begun["ftruncate"])
        for kind, action in (*FAILURES, *((kind, action) for kind in CALLS for action in "Kk")):
            for number in range(begun[kind] + 1, counts[kind] + 1):
                rules = "%s:%d:%s" % (kind, number, action)
                with self.subTest(rules):
                    done = self.run_on_new(self.program, COUNT, 1, rules, "open")
                    self.assertEqual((done.returncode, done.stdout, done.stderr), (-signal.SIGKILL if action in "Kk" else 0, ".", ""))
                    self.assertEqual(self.found(), [COUNT] * 3)

    def test_a_long_group(self) -> None:
        """What a long group settled on its way stays when the rest is lost."""
        records = self.settled(100, 1)
        syncs = sum(record.kind == "fsync" for record in records)
        self.assertEqual(syncs, 5)
        done = self.sent(100, 1, "fsync:4:K")
        self.assertEqual((done.returncode, done.stdout), (-signal.SIGKILL, ""))
        self.assertEqual(self.found(), [64] * 3)
        done = self.sent(100, 1, "fsync:4:E5")
        self.assertEqual((done.returncode, done.stdout), (0, "!."))
        self.assertEqual(self.found(), [100] * 3)
