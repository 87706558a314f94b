"""The protocol beside its document: the example, the conversation, the limits, and every fault."""

from __future__ import annotations

import os
import random
import re
import unittest
from typing import List, Tuple

from udfburn import protocol as p
from udfburn.protocol import names as name_module
from udfburn.protocol.units import Commit, Moment

DOCUMENT = os.path.join(os.path.dirname(__file__), "..", "..", "..", "docs", "PROTOCOL.md")


def document() -> str:
    with open(DOCUMENT, encoding="utf-8") as file:
        return file.read()


def unhex(text: str) -> bytes:
    return bytes.fromhex(text)


def cells(section: str) -> List[List[str]]:
    rows = [[cell.strip() for cell in line.strip("|").split("|")] for line in section.split("\n") if line.startswith("|")]
    return [row for row in rows if not set("".join(row)) <= set("- ")]


def section(title: str) -> str:
    return document().split(f"## {title}\n", 1)[1].split("\n## ", 1)[0]


def conversation() -> List[Tuple[str, bytes, bytes]]:
    """What the message of each row is, its frame, and its answer."""
    return [(row[0], unhex(row[1].strip("`")), unhex(row[2].strip("`"))) for row in cells(section("A conversation"))[1:]]


MESSAGES: List[p.Message] = [
    p.MakeDir(7, 2, Moment(0), ("d",)), p.Rename(7, 3, Moment(0), ("a",), ("d", "b")), p.Replace(7, 4, Moment(0), ("d", "b"), b"bye"),
    p.Get(("d", "b")), p.List(("d",)), p.Stat(("d",)), p.Remove(7, 5, Moment(0), ("d",)), p.Remove(7, 6, Moment(0), ("d", "b")),
    p.Rename(7, 3, Moment(0), ("a",), ("d", "b")), p.MakeDir(7, 2, Moment(0), ("d",)), p.Remove(7, 8, Moment(0), ("d",)), p.Get(("a",)), p.Get(("d",)),
]
ANSWERS: List[p.Answer] = [
    p.Committed(p.Code.DONE, Commit(2)), p.Committed(p.Code.DONE, Commit(3)), p.Committed(p.Code.DONE, Commit(4)), p.Data(b"bye"),
    p.Names((p.Name(p.NodeKind.FILE, "b"),)), p.Node(p.NodeKind.DIRECTORY, Moment(0), 1), p.Committed(p.Code.NOT_EMPTY, Commit(5)),
    p.Committed(p.Code.DONE, Commit(6)), p.Committed(p.Code.DONE, Commit(3)), p.Stale(6), p.Gap(6), p.NOT_FOUND, p.IS_DIRECTORY,
    p.Malformed(p.Cause.CLIENT_ZERO),
]


class Document(unittest.TestCase):
    """PROTOCOL.md, byte by byte."""

    def test_the_example(self) -> None:
        text = section("An example")
        written = b"".join(unhex("".join(re.findall(r"`([^`]*)`", row[0]))) for row in cells(text)[1:])
        create = p.Create(7, 1, Moment(0), ("a",), b"hello")
        self.assertEqual(p.frame(p.encode_message(create)), written)
        self.assertEqual(p.prefix(len(written) - 4) + p.encode_head(create) + b"hello", written)
        self.assertEqual(p.decode_message(written[4:]), create)
        quoted = [unhex(code) for code in re.findall(r"`((?:[0-9A-F]{2} ?)+)`", text.split("On a new volume", 1)[1])]
        reply = p.frame(p.encode_answer(p.Committed(p.Code.DONE, Commit(1))))
        self.assertEqual(b"".join(quoted[:3]), reply)
        get, data, lists, names, stat = (
            p.frame(p.encode_message(p.Get(("a",)))), p.frame(p.encode_answer(p.Data(b"hello"))), p.frame(p.encode_message(p.List(()))),
            p.frame(p.encode_answer(p.Names((p.Name(p.NodeKind.FILE, "a"),)))), p.frame(p.encode_message(p.Stat(("a",)))),
        )
        whole = b"".join(quoted[3:])
        self.assertTrue(whole.startswith(get + data + lists + names + stat), whole.hex(" "))
        node = p.encode_answer(p.Node(p.NodeKind.FILE, Moment(0), 5))
        self.assertEqual(node, unhex("42 00 00") + bytes(8) + b"\x05" + bytes(7))
        self.assertTrue(whole.endswith(unhex("00 00 00 80") + p.frame(p.encode_answer(p.Malformed(p.Cause.TOO_LONG)))))

    def test_the_conversation(self) -> None:
        rows = conversation()
        self.assertEqual(len(rows), 14)
        for (name, sent, got), message in zip(rows, MESSAGES):
            self.assertEqual(p.frame(p.encode_message(message)), sent, name)
            self.assertEqual(p.decode_message(sent[4:]), message, name)
            if isinstance(message, p.Request):
                self.assertEqual(p.encode_head(message) + data_in(message), sent[4:], name)
        for (name, sent, got), answer in zip(rows, ANSWERS):
            self.assertEqual(p.frame(p.encode_answer(answer)), got, name)
            self.assertEqual(p.decode_answer(got[4:]), answer, name)
        with self.assertRaises(p.Fault) as raised:
            p.decode_message(rows[-1][1][4:])
        self.assertEqual(raised.exception.cause, p.Cause.CLIENT_ZERO)

    def test_the_tables(self) -> None:
        """Each kind, cause and code of the document is a member here, and the other way round."""
        kinds = {int(row[0]) for row in cells(section("Requests and queries").split("### Faults")[0].split("| Field |")[0])[1:]}
        self.assertEqual(kinds, {int(kind) for kind in p.Kind})
        causes = {int(row[0]) for row in cells(section("Requests and queries").split("### Faults")[1])[1:]}
        self.assertEqual(causes, {int(cause) for cause in p.Cause})
        answers, codes = section("Answers").split("| Code | Result")
        self.assertEqual({int(row[0]) for row in cells(answers)[2:]}, {int(code) for code in p.AnswerCode})
        self.assertEqual({int(row[0]) for row in cells(codes) if row[0].isdigit()}, {int(code) for code in p.Code})
        self.assertIn(f"at most {p.limits.PAYLOAD:,}", document())
        self.assertIn(f"at most {p.limits.FILE:,} bytes", document())
        self.assertIn(f"below {p.limits.MOMENT:,}", document())


class Faults(unittest.TestCase):
    """The first fault of a payload, in the order of the document."""

    HEAD = bytes((1,)) + bytes((7,)) + bytes(7) + bytes((1,)) + bytes(7) + bytes(8)

    def fault(self, payload: bytes) -> p.Cause:
        with self.assertRaises(p.Fault) as raised:
            p.decode_message(payload)
        return raised.exception.cause

    def test_each_cause(self) -> None:
        good = p.encode_message(p.Create(7, 1, Moment(0), ("a",), b"hello"))
        self.assertEqual(self.fault(b"\x10" + bytes(p.limits.PAYLOAD)), p.Cause.TOO_LONG)
        for kind in (0, 7, 9, 15, 20, 255):
            self.assertEqual(self.fault(bytes((kind,)) + good[1:]), p.Cause.KIND)
        for end in range(len(good)):
            self.assertEqual(self.fault(good[:end]), p.Cause.SHORT, end)
        self.assertEqual(self.fault(good + b"x"), p.Cause.EXTRA)
        self.assertEqual(self.fault(self.HEAD + b"\x01\x01\x00a" + (p.limits.FILE + 1).to_bytes(4, "little")), p.Cause.EXTRA)
        self.assertEqual(self.fault(good[:17] + p.limits.MOMENT.to_bytes(8, "little") + good[25:]), p.Cause.MOMENT)
        self.assertEqual(self.fault(b"\x05" + bytes(8)), p.Cause.CLIENT_ZERO)
        self.assertEqual(self.fault(b"\x05\x07" + bytes(15)), p.Cause.NUMBER_ZERO)

    def test_names(self) -> None:
        for text in (b"", b".", b"..", b"a/b", b"a\0b", "\U0001F600".encode(), "\uFEFF".encode(), "\uFFFE".encode(), b"\xff", b"\xed\xa0\x80", b"a" * 255, "\u0101".encode() * 128):
            payload = b"\x12\x01" + len(text).to_bytes(2, "little") + text
            self.assertEqual(self.fault(payload), p.Cause.PATH, text)
        for name in ("a" * 254, "\u0101" * 127, "\u00e9" * 254, "...", "\uFFFF", "a" * 126 + "\u0101"):
            self.assertEqual(p.decode_message(p.encode_message(p.Stat((name,)))), p.Stat((name,)))
        self.assertEqual(self.fault(b"\x12\x01\xff\xffa"), p.Cause.SHORT)
        self.assertEqual(self.fault(b"\x12\x02\x01\x00."), p.Cause.PATH)

    def test_characters(self) -> None:
        """The first and the last character of each range that a name may have, and those beside them."""
        for code in (0x1, 0xD7FF, 0xE000, 0xFEFE, 0xFF00, 0xFFFD, 0xFFFF):
            self.assertIsNone(p.name_fault(chr(code)), hex(code))
        for code in (0xD800, 0xDFFF, 0xFEFF, 0xFFFE, 0x10000, 0x10FFFF):
            self.assertEqual(p.name_fault(chr(code)), name_module.NameFault.WIDE, hex(code))

    def test_what_cannot_be_said(self) -> None:
        messages: List[p.Message] = [p.MakeDir(0, 1, Moment(0), ("a",)), p.MakeDir(1, 0, Moment(0), ("a",)), p.MakeDir(1, 1, Moment(p.limits.MOMENT), ("a",)), p.MakeDir(1, 1, Moment(-1), ("a",)),
                        p.MakeDir(1 << 64, 1, Moment(0), ("a",)), p.MakeDir(1, 1, Moment(0), ("",)), p.MakeDir(1, 1, Moment(0), ("a",) * 256), p.Create(1, 1, Moment(0), ("a",), bytes(p.limits.FILE + 1)),
                        p.Append(1, 1, Moment(0), ("a",), 0, b""), p.Append(1, 1, Moment(0), ("a",), -1, b"x"), p.Append(1, 1, Moment(0), ("a",), 1 << 64, b"x"),
                        p.Append(1, 1, Moment(0), ("a",), 0, bytes(p.limits.FILE + 1))]
        for message in messages:
            with self.assertRaises(p.Fault) as whole:
                p.encode_message(message)
            assert isinstance(message, p.Request)
            with self.assertRaises(p.Fault) as head:
                p.encode_head(message)
            self.assertEqual(head.exception.cause, whole.exception.cause)

    def test_paths(self) -> None:
        self.assertEqual(p.path_of("/"), ())
        self.assertEqual(p.path_of("/a/b/"), ("a", "b"))
        self.assertEqual(p.path_of(["a", "b"]), ("a", "b"))
        for path, error in (("a", p.InvalidPath), ("", p.InvalidPath), ("/a//b", p.InvalidName), ("/a/../b", p.InvalidName), ("/" + "a/" * 256, p.InvalidPath)):
            with self.assertRaises(error):
                p.path_of(path)
        for octets, told in ((b"/b\xff\x80", r"b\xff\x80 is not UTF-8"), (b"/\xed\xa0\x80", r"\xed\xa0\x80 is not UTF-8"), (b"/\xef\xbb\xbf", r"'\ufeff' has a character")):
            with self.assertRaises(p.InvalidName) as raised:
                p.path_of(os.fsdecode(octets))
            self.assertIn(told, str(raised.exception))
        self.assertEqual(name_module.spelled_size("\u00e9"), 2)
        self.assertEqual(name_module.spelled_size("\u0101a"), 5)


class Answers(unittest.TestCase):
    """Answers that are none."""

    def test_nonsense(self) -> None:
        bad = ["", "00", "0000", "0B00", "0B00 00000000", "0000 0100", "2000", "2600 0000", "2600 3B00", "4000 01000000", "4000 00000000 00", "4000 01001000",
               "4100 0100 02 0100 61", "4100 0100 00 0200 2E2E", "4100 0100 00 0100 2F", "4100 0200 00 0100 61 01 0100 61", "4100 0102", "4200 02", "4200 00",
               "4200 00 0000000000000000 0100f03600000000", "4200 00 FFFFFFFFFFFFFFFF 0000000000000000", "4200 01 0000000000000000 0102000000000000", "6000 00", "FFFF"]
        for text in bad:
            with self.assertRaises(p.BadAnswer, msg=text):
                p.decode_answer(unhex(text))

    def test_frames_in_any_cut(self) -> None:
        stream = b"".join(got for _, _, got in conversation())
        for size in range(1, 40):
            frames, found = p.Frames(), []
            for begin in range(0, len(stream), size):
                frames.feed(stream[begin : begin + size])
                while True:
                    payload = frames.take()
                    if payload is None:
                        break
                    found.append(p.decode_answer(payload))
            self.assertEqual(found, ANSWERS)
            self.assertEqual(frames.rest(), 0)
        frames = p.Frames()
        frames.feed(unhex("01 00 11 00"))
        with self.assertRaises(p.BadAnswer):
            frames.take()

    def test_the_greatest_frame(self) -> None:
        """A payload of exactly the greatest length is one, and a byte more is too many, at each place that looks."""
        payload = bytes(p.limits.PAYLOAD)
        frames = p.Frames()
        frames.feed(p.frame(payload))
        self.assertEqual((frames.take(), frames.rest()), (payload, 0))
        self.assertEqual(p.prefix(len(payload)), unhex("00 00 11 00"))
        self.assertRaisesRegex(ValueError, "above the limit", p.prefix, len(payload) + 1)
        self.assertRaisesRegex(ValueError, "above the limit", p.frame, payload + b"\0")
        with self.assertRaises(p.Fault) as long:
            p.decode_message(b"\x10" + payload[1:])
        self.assertNotEqual(long.exception.cause, p.Cause.TOO_LONG)

    def test_round_trips(self) -> None:
        chance = random.Random(22)
        for _ in range(500):
            message = random_message(chance)
            self.assertEqual(p.decode_message(p.encode_message(message)), message)
            if isinstance(message, p.Request):
                self.assertEqual(p.encode_head(message) + data_in(message), p.encode_message(message))
            answer = random_answer(chance)
            self.assertEqual(p.decode_answer(p.encode_answer(answer)), answer)


class Values(unittest.TestCase):
    """Requests, queries and answers are equal where their classes and all their fields are."""

    def test_equal(self) -> None:
        create = p.Create(1, 2, Moment(3), ("a",), b"x")
        self.assertEqual(create, p.Create(client=1, number=2, moment=Moment(3), path=("a",), data=b"x"))
        others = [
            p.Replace(1, 2, Moment(3), ("a",), b"x"), p.Create(9, 2, Moment(3), ("a",), b"x"), p.Create(1, 9, Moment(3), ("a",), b"x"), p.Create(1, 2, Moment(9), ("a",), b"x"),
            p.Create(1, 2, Moment(3), ("b",), b"x"), p.Create(1, 2, Moment(3), ("a",), b"y"), p.Append(1, 2, Moment(3), ("a",), 0, b"x"), p.Get(("a",)), None, (1, 2, 3, ("a",), b"x"),
        ]
        self.assertTrue(all(create != other for other in others))
        self.assertNotEqual(p.Stale(5), p.Gap(5))
        self.assertNotEqual(p.Rename(1, 2, Moment(3), ("a",), ("b",)), p.Rename(1, 2, Moment(3), ("a",), ("c",)))
        self.assertEqual(len({p.Stat(("a",)), p.Stat(("a",)), p.Get(("a",)), p.FULL, p.Bare(p.AnswerCode.FULL)}), 3)

    def test_shown(self) -> None:
        self.assertEqual(repr(p.Rename(1, 2, Moment(3), ("a",), ("b",))), "Rename(client=1, number=2, moment=3, path=('a',), to=('b',))")
        self.assertEqual(repr(p.Gap(7)), "Gap(latest=7)")

    def test_no_other_fields(self) -> None:
        for value in (p.Create(1, 2, Moment(3), (), b""), p.MakeDir(1, 2, Moment(3), ()), p.Stat(()), p.FULL, p.Node(p.NodeKind.FILE, Moment(0), 0)):
            with self.assertRaises(AttributeError):
                setattr(value, "another", 1)


def data_in(message: p.Message) -> bytes:
    return message.data if isinstance(message, (p.Create, p.Replace, p.Append)) else b""


def random_path(chance: random.Random) -> p.Path:
    return tuple(random_name(chance) for _ in range(chance.choice((0, 1, 1, 2, 3, 16, 255))))


def random_name(chance: random.Random) -> str:
    while True:
        name = "".join(chr(chance.choice((97, 0xE9, 0x101, chance.randrange(1, 0x10000)))) for _ in range(chance.choice((1, 2, 5, 20))))
        if p.name_fault(name) is None:
            return name


def random_message(chance: random.Random) -> p.Message:
    numbers = (chance.randint(1, p.limits.U64), chance.randint(1, p.limits.U64), Moment(chance.randrange(p.limits.MOMENT)))
    path, data = random_path(chance), chance.randbytes(chance.choice((0, 1, 5, 5000)))
    messages: List[p.Message] = [
        p.Create(*numbers, path, data), p.Replace(*numbers, path, data), p.MakeDir(*numbers, path), p.Rename(*numbers, path, random_path(chance)),
        p.Append(*numbers, path, chance.choice((0, p.limits.FILE, p.limits.U64)), data or b"x"),
        p.Remove(*numbers, path), p.Get(path), p.List(path), p.Stat(path), p.Read(path, chance.choice((0, p.limits.U64)), chance.randrange(p.limits.FILE + 1)),
    ]
    return chance.choice(messages)


def random_answer(chance: random.Random) -> p.Answer:
    names = list(dict.fromkeys(random_name(chance) for _ in range(chance.choice((0, 1, 9, 100)))))
    answers: List[p.Answer] = [
        p.Committed(chance.choice(list(p.Code)), Commit(chance.randrange(1 << 32))), p.Stale(chance.randrange(1 << 64)), p.Gap(chance.randrange(1 << 64)),
        p.Malformed(chance.choice(list(p.Cause))), p.Data(chance.randbytes(chance.choice((0, 9, 9000)))), chance.choice(list(p.BARE.values())),
        p.Names(tuple(p.Name(chance.choice(list(p.NodeKind)), name) for name in names)),
        p.Node(p.NodeKind.FILE, Moment(chance.randrange(p.limits.MOMENT)), chance.randrange(p.limits.FILE + 1)),
    ]
    return chance.choice(answers)


if __name__ == "__main__":
    unittest.main()
