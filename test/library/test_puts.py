"""Files from streams, by udfburn_put: what it does, and what it leaves where its process is killed or calls of the system fail."""
from __future__ import annotations

import random
import signal
import subprocess
from typing import Dict, List

from faults.log import read_log
from faults.pages import Disk, losses
from faults.programs import HERE as FAULTS
from faults.programs import compile_shim
from library.building import CLANG, GPP, PATIENCE
from library.running import DRIVES, VALGRIND, Running

PIECE = 1 << 20
WHOLE = 2**64 - 1
KEPT = b"what another request stored"


class Puts(Running):
    def test_by_compilers(self) -> None:
        self.passes("puts.c", self.compiled("puts.c", CLANG), (), *self.words("puts.c"), "most")
        self.passes("puts.c", self.compiled("puts.c", GPP, "libudfburn.so"))

    def test_watched(self) -> None:
        self.passes("puts.c", self.compiled("puts.c", watched=True))

    def test_under_valgrind(self) -> None:
        self.passes("puts.c", self.compiled("puts.c"), VALGRIND)

    def test_on_drives(self) -> None:
        for watched in (False, True):
            with self.subTest(watched=watched):
                self.passes("put_drives.c", self.compiled("put_drives.c", archive=DRIVES, watched=watched))


class Faults(Running):
    """The stream of a file of two pieces and five bytes, after one that another client left or that was begun."""

    size = 2 * PIECE + 5

    def setUp(self) -> None:
        super().setUp()
        compile_shim(FAULTS / "shim.c", self.folder / "shim.so")
        self.program = self.compiled("stored.c")
        made = self.udfburn("format", "new.img", "DISC", "0", "8000")
        self.assertEqual((made.returncode, made.stderr), (0, b""))
        kept = bytes.fromhex("01" "0900000000000000" "0100000000000000" "0000000000000000" "01" "0400") + b"kept"
        kept += len(KEPT).to_bytes(4, "little") + KEPT
        done = self.udfburn("apply", "new.img", stdin=len(kept).to_bytes(4, "little") + kept)
        self.assertEqual(done.stdout, bytes.fromhex("06000000" "0000" "01000000"))
        self.new = (self.folder / "new.img").read_bytes()

    def stored(self, rules: str = "", log: str = "", differs: int = WHOLE, tries: int = 1) -> "subprocess.CompletedProcess[str]":
        faults: Dict[str, str] = {}
        if rules or log:
            faults = {"LD_PRELOAD": str(self.folder / "shim.so"), "FAULT_IMAGE": "d.img", "FAULT_RULES": rules}
        if log:
            faults["FAULT_LOG"] = str(self.folder / log)
        words = [self.program, "d.img", "/file", "1", str(self.size), str(differs), str(tries)]
        return subprocess.run(words, cwd=self.folder, capture_output=True, text=True, timeout=PATIENCE, env=self.environment(**faults))

    def begin(self, content: bytes) -> None:
        (self.folder / "d.img").write_bytes(content)

    def calls(self, content: bytes, kind: str) -> int:
        """How many calls of this kind there are where nothing fails."""
        self.begin(content)
        (self.folder / "calls").unlink(missing_ok=True)
        self.assertEqual(self.stored(log="calls").returncode, 0)
        count = sum(record.kind == kind for record in read_log(self.folder / "calls"))
        self.assertGreater(count, 8)
        return count

    def names(self) -> List[str]:
        done = self.udfburn("ls", "d.img", "/")
        self.assertEqual((done.returncode, done.stderr), (0, b""))
        return [line.split()[-1] for line in done.stdout.decode().splitlines()]

    def commits(self) -> int:
        done = self.udfburn("check", "d.img")
        self.assertEqual((done.returncode, done.stderr), (0, b""))
        return int(done.stdout.split()[1])

    def is_whole_or_none(self, why: str) -> None:
        """A volume that is sound, in which the file is whole or not at all, and the other one as it was."""
        names = self.names()
        self.assertIn(sorted(name for name in names if not name.startswith(".udfburn-unfinished-")), (["kept"], ["file", "kept"]), why)
        self.assertEqual(self.udfburn("get", "d.img", "/kept").stdout, KEPT, why)
        if "file" in names:
            self.assertEqual(names, ["kept", "file"], why)
            self.assertRegex(self.stored().stdout, r"^UDFBURN_OK\n0 \d+ there\n$", why)

    def is_stored(self, commits: int, why: str) -> None:
        """Another call has it whole, and each request was committed once, over all calls."""
        done = self.stored()
        self.assertEqual((done.returncode, done.stderr, done.stdout[:11]), (0, "", "UDFBURN_OK\n"), why)
        self.assertEqual((self.names(), self.commits()), (["kept", "file"], commits), why)
        self.assertEqual(self.udfburn("get", "d.img", "/kept").stdout, KEPT, why)

    def test_killed_at_each_call(self) -> None:
        commits = 1 + 4
        for kind, actions in (("pwrite", ("K", "P3000K")), ("fsync", ("K", "k"))):
            for number in range(1, self.calls(self.new, kind) + 1):
                for action in actions:
                    rules = "%s:%d:%s" % (kind, number, action)
                    self.begin(self.new)
                    self.assertEqual(self.stored(rules).returncode, -signal.SIGKILL, rules)
                    self.is_whole_or_none(rules)
                    self.is_stored(commits, rules)

    def test_killed_twice(self) -> None:
        """The call that goes on is killed too."""
        for number in range(2, self.calls(self.new, "fsync") + 1, 2):
            for second in range(1, 5):
                rules = "fsync:%d:k, then fsync:%d:K" % (number, second)
                self.begin(self.new)
                self.stored("fsync:%d:k" % number)
                self.stored("fsync:%d:K" % second)
                self.is_whole_or_none(rules)
                self.is_stored(1 + 4, rules)

    def test_killed_where_another_stream_was_begun(self) -> None:
        """It has the first piece in common, which is copied. Each kill leaves what the next call makes the file of."""
        last = self.calls(self.new, "pwrite")
        self.begin(self.new)
        self.assertEqual(self.stored("pwrite:%d:K" % last, differs=PIECE + 7).returncode, -signal.SIGKILL)
        self.assertEqual(self.names(), ["kept", ".udfburn-unfinished-0000000000000007"])
        left = (self.folder / "d.img").read_bytes()
        for kind, action in (("fsync", "K"), ("fsync", "k"), ("pwrite", "P3000K")):
            for number in range(1, self.calls(left, kind) + 1):
                rules = "%s:%d:%s" % (kind, number, action)
                self.begin(left)
                self.assertEqual(self.stored(rules).returncode, -signal.SIGKILL, rules)
                self.is_whole_or_none(rules)
                done = self.stored()
                self.assertEqual((done.returncode, done.stderr, self.names()), (0, "", ["kept", "file"]), rules)
                self.commits()

    def test_power_lost_at_each_call(self) -> None:
        """The file is whole or not at all, and after the last call it is there. Another call makes it so."""
        self.begin(self.new)
        self.assertEqual(self.stored(log="calls").returncode, 0)
        disk, chance, seen = Disk(self.new, 4096), random.Random(20261129), set()
        records = [record for record in read_log(self.folder / "calls") if record.kind in ("pwrite", "fsync", "ftruncate")]
        for index, record in enumerate(records):
            disk.call(record)
            for loss in losses(disk, chance, 2):
                why = "call %d (%s): %s" % (index, record.kind, loss.how)
                if loss.content in seen:
                    continue
                seen.add(loss.content)
                self.begin(loss.content)
                self.is_whole_or_none(why)
                if index == len(records) - 1:
                    self.assertIn("file", self.names(), why)
                self.is_stored(1 + 4, why)
        self.assertGreater(len(seen), 30)
        self.assertTrue(disk.is_clean())

    def test_each_call_fails_once(self) -> None:
        """What comes together is done one by one then. If that fails too, the same call again does it, on the same handle: each request
        once."""
        cases = failures = 0
        for kind, actions in (("pwrite", ("E5", "P3000E5", "A5", "E28")), ("fsync", ("E5", "A5"))):
            # A volume that cannot be opened is another failure: nothing was sent.
            for number in range(2 if kind == "fsync" else 1, self.calls(self.new, kind) + 1):
                for action in actions:
                    failed = "UDFBURN_NO_SPACE" if action == "E28" else "UDFBURN_DEVICE"
                    for last, told in ((number, ""), (number + 1, "(%s\n)?" % failed)):
                        rules = "%s:%d-%d:%s" % (kind, number, last, action)
                        self.begin(self.new)
                        done = self.stored(rules, tries=2)
                        self.assertRegex(done.stdout, r"^%sUDFBURN_OK\n\d+ \d+( there)?\n$" % told, rules)
                        self.assertEqual((done.returncode, done.stderr), (0, ""), rules)
                        self.is_stored(1 + 4, rules)
                    cases, failures = cases + 1, failures + done.stdout.startswith(failed)
        # But where the second call only makes the place of a mark zeros again.
        self.assertGreater(2 * failures, cases)

    def test_a_disk_that_fails_for_good(self) -> None:
        for number in range(2, self.calls(self.new, "fsync") + 1):
            rules = "fsync:%d+:E5" % number
            self.begin(self.new)
            done = self.stored(rules, tries=3)
            self.assertEqual((done.returncode, done.stdout), (1, "UDFBURN_DEVICE\n" * 3), rules)
            self.is_whole_or_none(rules)
            self.is_stored(1 + 4, rules)
