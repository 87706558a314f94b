"""Messages that come by one call of the library: what they cost, and what is left where the call is cut off or calls of the system fail."""
from __future__ import annotations

import signal
import subprocess
from typing import List

from faults.log import Record, read_log
from faults.programs import HERE as FAULTS
from faults.programs import compile_shim
from library.building import CLANG, PATIENCE
from library.running import VALGRIND, Running

# A call with this many requests comes behind one with as many, which was answered.
COUNT = 5
BLOCK = 2048


class Grouped(Running):
    def setUp(self) -> None:
        super().setUp()
        compile_shim(FAULTS / "shim.c", self.folder / "shim.so")
        self.program = self.compiled("grouped.c", CLANG)
        made = self.udfburn("format", "new.img", "DISC", "0", "3000")
        self.assertEqual((made.returncode, made.stderr), (0, b""))
        self.new = (self.folder / "new.img").read_bytes()

    def sent(self, count: int, calls: int, rules: str = "") -> "subprocess.CompletedProcess[str]":
        """Sends requests to a new volume, with a log of the calls."""
        (self.folder / "d.img").write_bytes(self.new)
        (self.folder / "calls").unlink(missing_ok=True)
        faults = {"LD_PRELOAD": str(self.folder / "shim.so"), "FAULT_IMAGE": "d.img", "FAULT_RULES": rules,
                  "FAULT_LOG": str(self.folder / "calls")}
        return subprocess.run([self.program, "d.img", str(count), str(calls)], cwd=self.folder, capture_output=True, text=True,
                              timeout=PATIENCE, env=self.environment(**faults))

    def logged(self, kind: str) -> List[Record]:
        return [record for record in read_log(self.folder / "calls") if record.kind == kind]

    def syncs(self, count: int, calls: int) -> int:
        """How many syncs these calls take, beside the one of the opening."""
        done = self.sent(count, calls)
        self.assertEqual((done.returncode, done.stdout, done.stderr), (0, "." * calls, ""))
        self.assertEqual(self.found(), [count * calls] * 2)
        return len(self.logged("fsync")) - 1

    def found(self) -> List[int]:
        """How many commits a reader and a writer find."""
        return [int(word) for word in self.ran(self.program, "d.img").split()]

    def test_syncs(self) -> None:
        """Two for a call, whether it brings one request or 64."""
        for count, calls, wanted in ((1, 1, 2), (64, 1, 2), (65, 1, 4), (1, 20, 40), (20, 3, 6)):
            with self.subTest(count=count, calls=calls):
                self.assertEqual(self.syncs(count, calls), wanted)

    def test_under_valgrind(self) -> None:
        (self.folder / "d.img").write_bytes(self.new)
        self.ran(*VALGRIND, self.program, "d.img", "64", "2")
        self.assertEqual(self.found(), [128] * 2)

    def test_the_same_bytes(self) -> None:
        self.syncs(40, 1)
        together = (self.folder / "d.img").read_bytes()
        self.syncs(1, 40)
        self.assertTrue((self.folder / "d.img").read_bytes() == together)

    def test_killed_at_each_call(self) -> None:
        """What was answered is there. Of the call that was cut off all is there or nothing, and a reader sees what a writer finds."""
        self.syncs(COUNT, 2)
        counts = {kind: len(self.logged(kind)) for kind in ("pwrite", "fsync", "ftruncate")}
        heads = 0
        for kind, count in counts.items():
            for number in range(1, count + 1):
                for action in ("K", "k", "P1000K") if kind == "pwrite" else ("K", "k"):
                    rules = "%s:%d:%s" % (kind, number, action)
                    with self.subTest(rules):
                        done = self.sent(COUNT, 2, rules)
                        self.assertEqual((done.returncode, done.stderr), (-signal.SIGKILL, ""))
                        heads += (self.folder / "d.img").stat().st_size % BLOCK == 280
                        read, written = self.found()
                        self.assertEqual(read, written)
                        self.assertIn(written, (0, COUNT, 2 * COUNT))
                        self.assertGreaterEqual(written, COUNT * len(done.stdout))
                        self.assertEqual(self.udfburn("check", "d.img").stdout, b"sound %d\n" % written)
        # A head was left before marks, between them and behind them.
        self.assertGreater(heads, 2 * COUNT)

    def test_each_call_fails(self) -> None:
        """The messages are answered one by one then, and each is done."""
        self.syncs(COUNT, 2)
        wanted = (self.folder / "d.img").read_bytes()
        opening = {kind: len(self.opened(kind)) for kind in ("pwrite", "fsync", "ftruncate")}
        counts = {kind: len(self.logged(kind)) for kind in opening}
        for kind, action in (("pwrite", "E5"), ("pwrite", "P1000E28"), ("pwrite", "A5"), ("fsync", "E5"), ("fsync", "A5"), ("ftruncate", "E5")):
            for number in range(opening[kind] + 1, counts[kind] + 1):
                rules = "%s:%d:%s" % (kind, number, action)
                with self.subTest(rules):
                    done = self.sent(COUNT, 2, rules)
                    self.assertEqual((done.returncode, done.stdout, done.stderr), (0, "..", ""))
                    self.assertEqual(self.found(), [2 * COUNT] * 2)
                    self.assertTrue((self.folder / "d.img").read_bytes()[:len(wanted)] == wanted)

    def opened(self, kind: str) -> List[Record]:
        """The calls of an opening: those before the first write of blocks."""
        records = read_log(self.folder / "calls")
        first = next(index for index, record in enumerate(records) if record.kind == "pwrite")
        return [record for record in records[:first] if record.kind == kind]
