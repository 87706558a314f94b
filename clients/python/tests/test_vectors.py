"""The protocol beside the vectors: each payload, stream, answer and name in both directions."""

from __future__ import annotations

import unittest
from typing import Dict, List

from udfburn import protocol as p
from udfburn.protocol.names import has_spelling
from udfburn.protocol.units import Commit, Moment

from .vectors import Answer, answers, bytes_of, shown, text_shown

NAME_FAULTS = {number: fault for number, fault in enumerate(p.NameFault, 1)}
BARE: Dict[str, p.Bare] = {
    "clients-full": p.CLIENTS_FULL, "full": p.FULL, "failed": p.FAULT, "memory": p.MEMORY, "damaged": p.DAMAGED,
    "not-found": p.NOT_FOUND, "is-directory": p.IS_DIRECTORY, "not-directory": p.NOT_DIRECTORY,
    "too-long": p.TOO_LONG,
}
QUERIES = {p.Get: "get", p.List: "list", p.Stat: "stat"}
REQUESTS = {p.Create: "create", p.Replace: "replace", p.Append: "append", p.MakeDir: "make", p.Rename: "rename", p.Remove: "remove"}


def names(path: p.Path) -> List[str]:
    return [word for name in path for word in text_shown(name)]


def said(message: p.Message) -> List[str]:
    """The words of a message."""
    if isinstance(message, p.Read):
        return ["read", "offset", str(message.offset), "count", str(message.count), "path", *names(message.path)]
    if isinstance(message, (p.Get, p.List, p.Stat)):
        return [QUERIES[type(message)], "path", *names(message.path)]
    words = [REQUESTS[type(message)], "client", str(message.client), "number", str(message.number), "moment", str(message.moment)]
    if isinstance(message, p.Rename):
        return words + ["from", *names(message.path), "to", *names(message.to)]
    if isinstance(message, p.Append):
        words += ["offset", str(message.offset)]
    words += ["path", *names(message.path)]
    return words + ["data", *shown(message.data)] if isinstance(message, (p.Create, p.Replace, p.Append)) else words


def told(payload: bytes) -> List[str]:
    """What is answered to a payload: the words of its message, or its cause. A message has one payload."""
    try:
        message = p.decode_message(payload)
    except p.Fault as fault:
        return ["malformed", str(int(fault.cause))]
    return said(message) if p.encode_message(message) == payload else ["another", "payload"]


def streamed(stream: bytes, size: int) -> List[str]:
    """The messages of a stream in pieces of so many bytes."""
    frames = p.Frames()
    words: List[str] = []
    try:
        for at in range(0, len(stream), size):
            frames.feed(stream[at : at + size])
            payload = frames.take()
            while payload is not None:
                words += [";", *told(payload)]
                payload = frames.take()
    except p.BadAnswer:
        words += [";", "malformed", "51", ";", "over"]
    return words[1:]


def answer_of(words: List[str]) -> p.Answer:
    """The answer that words say."""
    kind, rest = words[0], words[1:]
    if kind in BARE:
        return BARE[kind]
    if kind == "code":
        return p.Committed(p.Code(int(rest[0])), Commit(int(rest[2])))
    if kind == "stale":
        return p.Stale(int(rest[0]))
    if kind == "gap":
        return p.Gap(int(rest[0]))
    if kind == "malformed":
        return p.Malformed(p.Cause(int(rest[0])))
    if kind == "data":
        return p.Data(bytes_of(rest))
    if kind == "names":
        pairs = zip(rest[::2], rest[1::2])
        return p.Names(tuple(p.Name(p.NodeKind[word.upper()], bytes_of([name]).decode()) for word, name in pairs))
    return p.Node(p.NodeKind[rest[0].upper()], Moment(int(rest[2])), int(rest[4]))


class Vectors(unittest.TestCase):
    """Each file that speaks of the protocol. Each has at least so many answers as it had when this was written."""

    def each(self, name: str, least: int, kinds: "set[str]") -> List[Answer]:
        found = [answer for answer in answers(name) if answer.question[0] in kinds]
        self.assertGreaterEqual(len(found), least)
        return found

    def test_payloads(self) -> None:
        for case, data, _, answer in self.each("frame.txt", 90, {"payload"}):
            with self.subTest(case):
                self.assertEqual(told(data), answer)

    def test_streams(self) -> None:
        for case, data, _, answer in self.each("frame.txt", 9, {"frames"}):
            for size in range(1, len(data) + 1):
                with self.subTest(case, size=size):
                    self.assertEqual(streamed(data, size), answer)

    def test_frames(self) -> None:
        payload = b"\x11\0"
        self.assertEqual(p.frame(payload), b"\x02\0\0\0" + payload)

    def test_paths(self) -> None:
        for case, data, _, answer in self.each("frame.txt", 13, {"path"}):
            text = data.decode()
            # The client allows slashes at the end of a path, and names the root by them.
            if case in ("no-path-two-slashes", "no-path-a-slash-behind"):
                continue
            with self.subTest(case):
                try:
                    words = ["path", *names(p.path_of(text))]
                except (p.InvalidName, p.InvalidPath):
                    words = ["fault", "55"]
                self.assertEqual(words, answer)

    def test_answers(self) -> None:
        for case, data, _, words in self.each("answer.txt", 37, {"answer"}):
            with self.subTest(case):
                answer = answer_of(words)
                self.assertEqual(p.frame(p.encode_answer(answer)), data)
                self.assertEqual(p.decode_answer(data[4:]), answer)

    def test_names(self) -> None:
        for case, data, question, answer in self.each("name.txt", 20, {"name"}):
            with self.subTest(case):
                if question[1:]:
                    text = "" if question[1:] == ["empty"] else bytes_of(question[1:]).decode()
                    fault = p.name_fault(text)
                    expected = NAME_FAULTS[int(answer[1])] if answer[0] == "fault" else None
                    self.assertEqual(fault, expected)
                    if fault is None:
                        self.assertEqual(p.spelled_size(text), len(bytes_of(answer)))
                elif answer != ["none"]:
                    text = bytes_of(answer).decode()
                    self.assertIsNone(p.name_fault(text))
                    self.assertEqual(p.spelled_size(text), len(data))

    def test_spellings(self) -> None:
        for case, data, question, answer in self.each("name.txt", 20, {"spelling"}):
            with self.subTest(case):
                if question[1:] and answer[0] == "fault":
                    self.assertFalse(all(map(has_spelling, bytes_of(question[1:]).decode())))
                elif not question[1:] and answer[0] != "fault":
                    text = "" if answer == ["empty"] else bytes_of(answer).decode()
                    self.assertEqual(p.spelled_size(text), len(data))
                    self.assertTrue(all(map(has_spelling, text)))


if __name__ == "__main__":
    unittest.main()
