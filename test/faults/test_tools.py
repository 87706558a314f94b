"""What the tests build on: frames by the examples of docs/PROTOCOL.md, the model by its conversation, and the shim seen from a program."""
from __future__ import annotations

import unittest

from faults.case import Case, need_shim
from faults.log import Record, read_log
from faults.running import Daemon
from protocol import A_DIRECTORY, NO_NODE, Answer, Model, Request, answers_of, committed, encode, query


CONVERSATION = [
    (Request("create", 7, 1, "/a", b"hello"), "26000000010700000000000000010000000000000000000000000000000101006105000000 68656C6C6F",
     "0600000000000100 0000"),
    (Request("mkdir", 7, 2, "/d"), "1D00000003070000000000000002000000000000000000000000000000 01010064", "06000000000002000000"),
    (Request("rename", 7, 3, "/a", to="/d/b"),
     "24000000040700000000000000030000000000000000000000000000000101006102010064010062", "06000000000003000000"),
    (Request("replace", 7, 4, "/d/b", b"bye"),
     "270000000207000000000000000400000000000000000000000000000002010064010062 03000000627965", "06000000000004000000"),
    (Request("remove", 7, 5, "/d"), "1D0000000507000000000000000500000000000000000000000000000001010064", "06000000050005000000"),
    (Request("remove", 7, 6, "/d/b"), "20000000050700000000000000060000000000000000000000000000000201006401 0062", "06000000000006000000"),
    (Request("rename", 7, 3, "/a", to="/d/b"),
     "24000000040700000000000000030000000000000000000000000000000101006102010064010062", "06000000000003000000"),
    (Request("mkdir", 7, 2, "/d"), "1D0000000307000000000000000200000000000000000000000000000001010064", "0A00000020000600000000000000"),
    (Request("remove", 7, 8, "/d"), "1D0000000507000000000000000800000000000000000000000000000001010064", "0A00000021000600000000000000"),
]


class Spelling(unittest.TestCase):
    def test_conversation(self) -> None:
        model = Model()
        for request, spelled, answer in CONVERSATION:
            with self.subTest(request=request):
                self.assertEqual(encode(request), bytes.fromhex(spelled))
                self.assertEqual([model.answer(request)], answers_of(bytes.fromhex(answer)))
                if request.number == 4 and request.kind == "replace":
                    self.assertEqual(model.get("/d/b"), answers_of(bytes.fromhex("090000004000 03000000627965"))[0])
                    self.assertEqual(model.names("/d"), answers_of(bytes.fromhex("08000000410001 0000010062"))[0])

    def test_queries(self) -> None:
        self.assertEqual(query("get", "/a"), bytes.fromhex("05000000100101 0061"))
        self.assertEqual(query("list", "/"), bytes.fromhex("020000001100"))
        self.assertEqual(Model().get("/a"), Answer(NO_NODE))
        self.assertEqual(Model().get("/"), Answer(A_DIRECTORY))


class Shim(Case):
    """What the other tests rest upon: the calls are seen, and a rule is kept."""

    def setUp(self) -> None:
        super().setUp()
        need_shim()

    def test_a_commit_is_seen(self) -> None:
        image = self.fresh()
        before = image.read_bytes()
        ran = self.apply(encode(Request("create", 7, 1, "/a", b"hello")), log=self.log_path())
        self.tell(ran, 0, bytes.fromhex("06000000000001000000"), b"")
        records = read_log(self.log_path())
        seen = bytearray(before)
        for record in records:
            if record.kind == "pwrite":
                seen[record.offset:record.offset + record.result] = record.data
        self.assertEqual(bytes(seen), image.read_bytes())
        self.assertNotEqual(bytes(seen), before)
        self.assertTrue(any(record.kind == "fsync" and record.result == 0 for record in records))
        said = [record for record in records if record.kind == "stdout"]
        self.assertEqual(b"".join(record.data for record in said), ran.output)

    def test_a_daemon_is_seen(self) -> None:
        self.fresh()
        with Daemon(self.folder, "d.img", "--connections", "1", log=self.log_path()) as daemon:
            with daemon.client() as client:
                self.assertEqual(client.ask(encode(Request("create", 7, 1, "/a", b"hello"))), committed(0, 1))
            self.assertEqual(daemon.wait(), 0)
        records: list[Record] = read_log(self.log_path())
        self.assertEqual(b"".join(record.data for record in records if record.kind == "send"), bytes.fromhex("06000000000001000000"))
        self.assertTrue(any(record.kind == "pwrite" for record in records))
        self.assertTrue(any(record.kind == "accept" for record in records))

    def test_a_rule_is_kept(self) -> None:
        self.fresh()
        ran = self.apply(encode(Request("create", 7, 1, "/a", b"hello")), rules="pwrite:1:K")
        self.assertEqual(ran.status, -9)
        ran = self.apply(query("get", "/a"))
        self.tell(ran, 0, bytes.fromhex("020000006000"), b"")
