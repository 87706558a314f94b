"""The order of calls at each acknowledgement, for every kind of commit: what is answered is on the disk."""
from __future__ import annotations

import os
from typing import Sequence

from faults.calls import Discipline, is_entry, told_by
from faults.case import FORMATTED_BLOCKS, Case, need_shim
from faults.log import Record, read_log
from faults.running import Daemon
from protocol import BLOCK, Model, Request, answers_of, committed, data_answer, encode, paths_of, query, questions

MEBIBYTE = 1 << 20

# Each command that reads an image.
READERS = (("ls", "d.img", "/"), ("get", "d.img", "/a"), ("log", "d.img"), ("check", "d.img"))
# What a reader does not ask of an image.
WRITES = {"pwrite", "fsync", "ftruncate", "flock"}

# Before each commit of `COMMITS` these are.
BEFORE = [
    Request("create", 1, 1, "/a", b"first"),
    Request("mkdir", 1, 2, "/d"),
    Request("mkdir", 1, 3, "/e"),
    Request("create", 1, 4, "/d/x", b"second"),
]

# Each kind of commit, and how many blocks it takes at least: its last one is the VAT ICB.
COMMITS = {
    "create an empty file": Request("create", 2, 1, "/b"),
    "create a small file": Request("create", 2, 1, "/b", b"hello"),
    "create a file outside its entry": Request("create", 2, 1, "/b", bytes(range(256)) * 10),
    "create a file of a mebibyte": Request("create", 2, 1, "/b", b"0123456789abcdef" * (MEBIBYTE // 16)),
    "replace": Request("replace", 2, 1, "/a", b"other"),
    "replace by more than an entry has": Request("replace", 2, 1, "/d/x", b"z" * 5000),
    "make a directory": Request("mkdir", 2, 1, "/f"),
    "rename a file in its directory": Request("rename", 2, 1, "/a", to="/c"),
    "rename a file into another directory": Request("rename", 2, 1, "/a", to="/d/a"),
    "rename a directory into another": Request("rename", 2, 1, "/d", to="/e/d"),
    "remove a file": Request("remove", 2, 1, "/a"),
    "remove a directory": Request("remove", 2, 1, "/e"),
    "a committed refusal: it is there": Request("create", 2, 1, "/a", b"x"),
    "a committed refusal: it is not there": Request("remove", 2, 1, "/z"),
    "a committed refusal: a directory with names": Request("remove", 2, 1, "/d"),
}


def entry_for(block: bytes, number: int) -> bytes:
    """The VAT ICB, sealed for another block: its location, and the sum over the tag (docs/FORMAT.md)."""
    sealed = bytearray(block)
    sealed[12:16] = number.to_bytes(4, "little")
    sealed[4] = 0
    sealed[4] = sum(sealed[:16]) % 256
    return bytes(sealed)


class Order(Case):
    def setUp(self) -> None:
        super().setUp()
        need_shim()

    def disciplined(self, records: Sequence[Record], length: int, daemon: bool = False, is_format: bool = False,
                    folder_synced: bool = True) -> Discipline:
        followed = Discipline(length, self.folder, folder_synced, is_format).follow(records, daemon)
        self.assertEqual(followed.faults, [])
        return followed

    def prepared(self) -> tuple[Model, int]:
        """An image with `BEFORE` in it, its model, and its length."""
        image = self.fresh(capacity=3000)
        model = Model()
        wanted = [model.answer(request) for request in BEFORE]
        ran = self.apply(b"".join(map(encode, BEFORE)))
        self.assertEqual(answers_of(ran.output), wanted)
        return model, image.stat().st_size

    def test_each_commit_of_apply(self) -> None:
        for name, request in COMMITS.items():
            with self.subTest(name):
                model, length = self.prepared()
                wanted = model.answer(request)
                ran = self.apply(encode(request), log=self.new_log())
                self.assertEqual(answers_of(ran.output), [wanted])
                followed = self.disciplined(read_log(self.log_path()), length)
                self.assertEqual((followed.answers, followed.seen_entries), (1, 1))
                self.tree_is(model, paths_of([*BEFORE, request]))

    def test_each_commit_of_the_daemon(self) -> None:
        for name, request in COMMITS.items():
            with self.subTest(name):
                model, length = self.prepared()
                wanted = model.answer(request)
                with Daemon(self.folder, log=self.new_log()) as daemon, daemon.client() as client:
                    self.assertEqual(client.ask(encode(request)), wanted)
                    self.assertEqual(client.ask(encode(request)), wanted)
                followed = self.disciplined(read_log(self.log_path()), length, daemon=True)
                self.assertEqual((followed.answers, followed.seen_entries), (2, 1))
                self.tree_is(model, paths_of([*BEFORE, request]))

    def test_a_stream_of_commits(self) -> None:
        """All of them one after another, over one connection and in one stream."""
        stream, number = list(BEFORE), 0
        for request in COMMITS.values():
            number += 1
            stream.append(request._replace(number=number))
        for by_daemon in (False, True):
            with self.subTest(by_daemon=by_daemon):
                model = Model()
                wanted = [model.answer(request) for request in stream]
                length = self.fresh(capacity=3000).stat().st_size
                if by_daemon:
                    with Daemon(self.folder, log=self.new_log()) as daemon, daemon.client() as client:
                        self.assertEqual([client.ask(encode(request)) for request in stream], wanted)
                else:
                    ran = self.apply(b"".join(map(encode, stream)), log=self.new_log())
                    self.assertEqual(answers_of(ran.output), wanted)
                followed = self.disciplined(read_log(self.log_path()), length, daemon=by_daemon)
                self.assertEqual((followed.answers, followed.seen_entries), (len(stream), len(stream)))
                self.tree_is(model, paths_of(stream))

    def test_two_syncs_for_what_came_together(self) -> None:
        """By `apply`, and by the daemon where frames are sent at once. Three that come one after another take six."""
        frames = b"".join(map(encode, BEFORE))
        length = self.fresh(capacity=3000).stat().st_size
        self.apply(frames, log=self.new_log())
        followed = self.disciplined(read_log(self.log_path()), length)
        self.assertEqual((list(map(len, followed.groups)), followed.group_syncs), ([4], 2))
        for sent, groups in (([frames], [4]), ([encode(request) for request in BEFORE[:3]], [1, 1, 1])):
            self.fresh(capacity=3000)
            with Daemon(self.folder, log=self.new_log()) as daemon, daemon.client() as client:
                for piece in sent:
                    client.send(piece)
                    for _ in range(len(BEFORE) if piece == frames else 1):
                        self.assertIsNotNone(client.answer())
            followed = self.disciplined(read_log(self.log_path()), length, daemon=True)
            self.assertEqual((list(map(len, followed.groups)), followed.group_syncs), (groups, 2 * len(groups)))

    def test_a_commit_over_a_gap(self) -> None:
        """Data that would be a VAT ICB where it would be goes one block further, and a block of zeros is before it."""
        image = self.fresh()
        made = image.read_bytes()
        imitation = entry_for(made[(FORMATTED_BLOCKS - 1) * BLOCK:], FORMATTED_BLOCKS - 257)
        self.assertTrue(is_entry(imitation, FORMATTED_BLOCKS))
        request = Request("create", 7, 1, "/a", imitation)
        model = Model()
        wanted = model.answer(request)
        ran = self.apply(encode(request), log=self.log_path())
        self.assertEqual(answers_of(ran.output), [wanted])
        followed = self.disciplined(read_log(self.log_path()), len(made))
        self.assertEqual((followed.answers, followed.seen_entries), (1, 1))
        grown = image.read_bytes()
        self.assertEqual(grown[len(made):len(made) + BLOCK], bytes(BLOCK))
        self.assertEqual(grown[len(made) + BLOCK:len(made) + 2 * BLOCK], imitation)
        self.tree_is(model, ["/", "/a"])

    def test_a_repeat(self) -> None:
        """A kept reply reports a commit, so that it waits for the sync of the opening, and it writes nothing."""
        request = Request("create", 7, 1, "/a", b"hello")
        self.fresh()
        self.apply(encode(request))
        before = self.path("d.img").read_bytes()
        ran = self.apply(encode(request), log=self.log_path())
        self.assertEqual(answers_of(ran.output), [committed(0, 1)])
        records = read_log(self.log_path())
        followed = self.disciplined(records, len(before))
        self.assertEqual(followed.answers, 1)
        self.assertEqual([record.kind for record in records if record.kind in ("pwrite", "ftruncate")], [])
        self.assertTrue(followed.is_read_synced)
        self.assertEqual(self.path("d.img").read_bytes(), before)

    def test_a_query(self) -> None:
        """What a query reports is on the disk too."""
        request = Request("create", 7, 1, "/a", b"hello")
        length = self.fresh().stat().st_size
        self.assertEqual(self.apply(encode(request), rules="fsync:2:K", log=self.log_path()).status, -9)
        self.apply(questions(["/", "/a"]), log=self.log_path())
        followed = self.disciplined(read_log(self.log_path()), length)
        self.assertGreaterEqual(followed.answers, 4)

    def test_the_first_commit_behind_a_kill(self) -> None:
        """What a process that was killed left unsynced is synced before another one reads it, and so before it answers for it."""
        request = Request("create", 7, 1, "/a", b"hello")
        model = Model()
        wanted = model.answer(request)
        for rule in ("fadvise:1:K", "fadvise:1:k", "pwrite:1:k", "pwrite:2:k", "fsync:1:K", "fsync:2:K", "fsync:3:K", "stdout:1:K"):
            with self.subTest(rule):
                length = self.fresh().stat().st_size
                self.new_log()
                self.assertEqual(self.apply(encode(request), rules=rule, log=self.log_path()).status, -9)
                ran = self.apply(encode(request), log=self.log_path())
                self.assertEqual(answers_of(ran.output), [wanted])
                self.disciplined(read_log(self.log_path()), length)
                self.tree_is(model, ["/", "/a"])

    def test_a_format(self) -> None:
        ran = self.udfburn("format", "d.img", "DISC", "0", "600", log=self.log_path())
        self.tell(ran, 0, b"formatted\n", b"")
        followed = self.disciplined(read_log(self.log_path()), 0, is_format=True, folder_synced=False)
        self.assertEqual((followed.answers, followed.seen_entries), (1, 1))
        self.assertEqual(followed.length, FORMATTED_BLOCKS * BLOCK)

    def test_a_format_in_another_folder(self) -> None:
        """The folder that is synced is the image's."""
        other = self.path("other")
        other.mkdir()
        for image in ("other/d.img", str(other / "e.img"), "./f.img"):
            with self.subTest(image):
                ran = self.udfburn("format", image, "DISC", "0", "600", image=image, log=self.new_log())
                self.tell(ran, 0, b"formatted\n", b"")
                at = self.folder if image == "./f.img" else other
                records = read_log(self.log_path())
                # A folder's path is relative to where the program ran.
                folders = {record.descriptor: os.path.realpath(os.path.join(self.folder, record.data.decode()))
                           for record in records if record.kind == "folderopen"}
                synced = {folders.get(record.descriptor) for record in records if record.kind == "foldersync" and not record.error}
                self.assertIn(os.path.realpath(at), synced)

    def test_a_format_behind_a_kill(self) -> None:
        """Also where another process made the image, `formatted` waits for the folder and for all of the file."""
        rules = ["folderopen:1:K", "foldersync:1:K", "foldersync:1:k", "fsync:1:K", "pwrite:1:K", "pwrite:1:P100000K", "pwrite:1:k",
                 "pwrite:2:k", "fsync:2:K", "fsync:3:K", "stdout:1:k"]
        for rule in rules:
            with self.subTest(rule):
                self.path("d.img").unlink(missing_ok=True)
                self.new_log()
                killed = self.udfburn("format", "d.img", "DISC", "0", "600", rules=rule, log=self.log_path())
                self.assertEqual(killed.status, -9)
                ran = self.udfburn("format", "d.img", "DISC", "0", "600", log=self.log_path())
                self.tell(ran, 0, b"formatted\n", b"")
                followed = self.disciplined(read_log(self.log_path()), 0, is_format=True, folder_synced=False)
                self.assertEqual(followed.answers, 2 if rule.startswith("stdout") else 1)
                self.assertEqual(followed.length, FORMATTED_BLOCKS * BLOCK)

    def test_an_image_that_was_copied(self) -> None:
        """Its name came by another program, and is on the disk before anything is answered."""
        request = Request("create", 7, 1, "/a", b"hello")
        for by_daemon in (False, True):
            with self.subTest(by_daemon=by_daemon):
                length = self.fresh().stat().st_size
                if by_daemon:
                    with Daemon(self.folder, log=self.new_log()) as daemon, daemon.client() as client:
                        self.assertEqual(client.ask(encode(request)), committed(0, 1))
                else:
                    ran = self.apply(encode(request), log=self.new_log())
                    self.assertEqual(answers_of(ran.output), [committed(0, 1)])
                followed = self.disciplined(read_log(self.log_path()), length, daemon=by_daemon, folder_synced=False)
                self.assertEqual(followed.answers, 1)

    def test_a_folder_that_cannot_be_synced(self) -> None:
        """The image is refused, and nothing is answered."""
        before = self.fresh().read_bytes()
        # The first folder that is opened is the root, for the standard streams.
        for rule in ("folderopen:2:E13", "foldersync:1:E5", "foldersync:1:A5"):
            with self.subTest(rule):
                ran = self.apply(encode(Request("create", 7, 1, "/a", b"hello")), rules=rule)
                self.tell(ran, 1, b"", b"udfburn: 64 Device\n")
                self.assertEqual(self.path("d.img").read_bytes(), before)

    def test_readers_write_nothing(self) -> None:
        """Without a lock, and with nothing but reads."""
        self.fresh()
        self.apply(encode(Request("create", 7, 1, "/a", b"hello")))
        for words in READERS:
            with self.subTest(words):
                ran = self.udfburn(*words, log=self.new_log())
                self.assertEqual((ran.status, ran.errors), (0, b""))
                records = read_log(self.log_path())
                opened = [record for record in records if record.kind == "open"]
                self.assertEqual([record.offset & os.O_ACCMODE for record in opened], [os.O_RDONLY])
                self.assertTrue(any(record.kind == "pread" for record in records))
                self.assertEqual({record.kind for record in records} & WRITES, set())
                # A write to what is open for reading never reaches the system. What is asked of the image before that write does.
                said = [record.kind for record in records].index("stdout")
                self.assertEqual({record.kind for record in records[said:]} - {"stdout", "close"}, set())

    def test_readers_of_no_volume(self) -> None:
        """A reader neither begins a volume nor finishes one: of an empty file and of a format that was cut each command asks the same, and is
        refused."""
        whole = self.fresh().read_bytes()
        for blocks in (0, 1, 100, FORMATTED_BLOCKS - 1):
            calls = []
            for words in READERS:
                with self.subTest(words, blocks=blocks):
                    self.path("d.img").write_bytes(whole[:blocks * BLOCK])
                    ran = self.udfburn(*words, log=self.new_log())
                    self.tell(ran, 1, b"", b"udfburn: 66 NotFormatted\n")
                    records = read_log(self.log_path())
                    self.assertEqual({record.kind for record in records} & WRITES, set())
                    calls.append([(record.kind, record.offset, record.length) for record in records])
                    self.assertEqual(calls[-1], calls[0])
                    self.assertEqual(self.path("d.img").read_bytes(), whole[:blocks * BLOCK])

    def test_a_later_connection(self) -> None:
        """The daemon opens the volume once: the connections after the first go on with it, and read far less than an opening does."""
        self.fresh()
        self.apply(encode(Request("create", 7, 1, "/a", b"hello")))
        with Daemon(self.folder, log=self.new_log()) as daemon:
            for _ in range(3):
                with daemon.client() as client:
                    self.assertEqual(client.ask(query("get", "/a")), data_answer(b"hello"))
                    client.end()
                    self.assertIsNone(client.answer())
        reads = []
        for record in read_log(self.log_path()):
            if record.kind == "accept":
                reads.append(0)
            elif record.kind == "pread":
                reads[-1] += 1
        self.assertEqual(len(reads), 3)
        self.assertLess(10 * max(reads[1:]), reads[0])


class Itself(Case):
    """The rules see what is wrong: the same logs with a sync that lies, and with a lie about the order."""

    def setUp(self) -> None:
        super().setUp()
        need_shim()

    def test_a_sync_that_lies_is_seen(self) -> None:
        length = self.fresh().stat().st_size
        self.apply(encode(Request("create", 7, 1, "/a", b"hello")), rules="fsync:*:L", log=self.log_path())
        faults = Discipline(length, self.folder).follow(read_log(self.log_path())).faults
        self.assertTrue(any("not all is synced" in fault for fault in faults), faults)
        self.assertTrue(any("read before it was synced" in fault for fault in faults), faults)

    def test_a_file_that_is_not_forgotten_is_seen(self) -> None:
        length = self.fresh().stat().st_size
        self.apply(encode(Request("create", 7, 1, "/a", b"hello")), rules="fadvise:*:L", log=self.log_path())
        faults = Discipline(length, self.folder).follow(read_log(self.log_path())).faults
        self.assertTrue(any("what the system kept of it" in fault for fault in faults), faults)

    def test_an_answer_is_found(self) -> None:
        self.fresh()
        self.apply(encode(Request("create", 7, 1, "/a", b"hello")), log=self.log_path())
        self.assertEqual([answer for _, answer in told_by(read_log(self.log_path()), False)], [committed(0, 1)])
