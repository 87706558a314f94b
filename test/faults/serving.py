"""A daemon under rules by which calls fail: each request is sent until it is done, and all is as it must be afterwards."""
from __future__ import annotations

import errno
import itertools
from typing import Optional, Sequence

from faults.calls import Discipline
from faults.case import Case, need_shim
from faults.log import KINDS, Record, read_log
from faults.pages import Disk
from faults.running import Client, Daemon
from protocol import BLOCK, FAULT, Answer, Model, Request, encode, paths_of


class Serving(Case):
    # The blocks of a volume that is served.
    capacity = 600

    def setUp(self) -> None:
        super().setUp()
        need_shim()

    def insisted(self, client: Client, request: Request, most: int = 12) -> tuple[Optional[Answer], int]:
        """Sends a request until it is answered otherwise than 36; how often it was."""
        for faults in range(most):
            answer = client.ask(encode(request))
            if answer != Answer(FAULT):
                return answer, faults
        return answer, most

    def run_with(self, rules: str, requests: Sequence[Request], most: int = 12) -> tuple[list[Record], int]:
        """A daemon under these rules serves the requests, each until it is done. Everything is as it must be after it: the answers,
        the order of calls, the tree, and the tree on a disk that kept nothing that a sync did not promise. How many were faults."""
        before = self.fresh(capacity=self.capacity).read_bytes()
        model = Model()
        faults = 0
        with Daemon(self.folder, log=self.new_log(), rules=rules) as daemon, daemon.client() as client:
            for request in requests:
                answer, count = self.insisted(client, request, most)
                faults += count
                self.assertEqual(answer, model.answer(request))
            self.assertEqual(daemon.errors(), b"")
        records = read_log(self.log_path())
        followed = Discipline(len(before), self.folder).follow(records, daemon=True)
        self.assertEqual(followed.faults, [])
        self.tree_is(model, paths_of(requests))
        # A failed sync kept nothing, and the power goes right after the last answer.
        disk = Disk(before, 4096)
        for record in records:
            disk.call(record)
        self.assertTrue(disk.is_clean())
        self.path("left.img").write_bytes(bytes(disk.disk))
        self.tree_is(model, paths_of(requests), "left.img")
        return records, faults

    def calls(self, requests: Sequence[Request], kinds: Sequence[str]) -> dict[str, int]:
        records, faults = self.run_with("", requests)
        self.assertEqual(faults, 0)
        return {kind: sum(record.kind == kind for record in records) for kind in kinds}

    @staticmethod
    def numbers(records: Sequence[Record], kind: str) -> list[list[int]]:
        """The numbers of the calls of this kind before each answer of a daemon and after the one before it."""
        found: list[list[int]] = [[]]
        calls = 0
        for record in records:
            if record.kind == kind:
                calls += 1
                found[-1].append(calls)
            elif record.kind == "send":
                found.append([])
        return found[:-1]

    def opening(self) -> dict[str, int]:
        """How many calls the opening of an image takes, up to the daemon's first wait for a client."""
        self.fresh()
        with Daemon(self.folder, log=self.new_log()) as daemon:
            with daemon.client() as client:
                client.end()
                self.assertIsNone(client.answer())
            daemon.kill()
        records = read_log(self.log_path())
        upto = [record.kind for record in records].index("accept")
        return {kind: sum(record.kind == kind for record in records[:upto]) for kind in KINDS}

    def cut_behind(self, records: Sequence[Record]) -> None:
        """After the first failure the next call that changes or reads the file cuts it, and the one after that is a sync. Where the file may
        have marks, zeros in their places come first, and their sync. The place of a mark whose write failed is looked at before that."""
        failed = next(index for index, record in enumerate(records)
                      if record.kind in ("pwrite", "fsync") and record.error not in (0, errno.EINTR))
        after = [record for record in records[failed + 1:] if record.kind in ("pread", "pwrite", "ftruncate", "fsync")]
        place = records[failed].offset // BLOCK * BLOCK
        if records[failed].kind == "pwrite" and after and (after[0].kind, after[0].offset, after[0].length) == ("pread", place, BLOCK):
            del after[0]
        zeros = list(itertools.takewhile(lambda record: record.kind == "pwrite" and record.length == BLOCK and not any(record.data), after))
        wanted = [*["pwrite"] * len(zeros), *["fsync"] * bool(zeros), "ftruncate", "fsync"]
        self.assertEqual([record.kind for record in after[:len(wanted)]], wanted)

    def cuts(self, records: Sequence[Record], length: int) -> int:
        """How many truncations after the first sync did not make a file longer, which had this length before."""
        disk, found, is_synced = Disk(bytes(length), 4096), 0, False
        for record in records:
            is_synced = is_synced or record.kind == "fsync"
            found += is_synced and record.kind == "ftruncate" and record.offset <= len(disk.cache)
            disk.call(record)
        return found
