"""Answers (answer.txt)."""

import struct

from frames import data, frame
from writing import Vectors, digits

OLD = "base_tests::messages::"


def listed(*names: "tuple[int, str]") -> bytes:
    """Names, each with the number of its kind."""
    return struct.pack("<H", len(names)) + b"".join(
        bytes([kind]) + struct.pack("<H", len(name.encode())) + name.encode() for kind, name in names)


def answers() -> Vectors:
    v = Vectors("answer.txt", "Answers as frames (docs/PROTOCOL.md, Answers): the code, and the fields after it. No answer's bytes are a prefix of another's.")
    v.about("The codes of a request that is committed, each with the number of its commit.")
    for code in range(11):
        _answer(v, f"code-{code}", OLD + "replies", code, struct.pack("<I", 1), f"code {code} commit 1")
    v.about("Answers with nothing after their code.")
    for code, said in [(34, "clients-full"), (35, "full"), (36, "failed"), (37, "memory"), (39, "damaged"), (96, "not-found"),
                       (97, "is-directory"), (98, "not-directory"), (99, "too-long")]:
        _answer(v, said, OLD + "answers_without_a_field", code, b"", said)
    v.about("Answers with fields.")
    of = OLD + "answers_with_fields"
    _answer(v, "stale", of, 32, struct.pack("<Q", 6), "stale 6")
    _answer(v, "gap", of, 33, struct.pack("<Q", 2), "gap 2")
    _answer(v, "malformed", of, 38, struct.pack("<H", 51), "malformed 51")
    _answer(v, "data", of, 64, data(b"hello"), 'data "hello"')
    _answer(v, "names", of, 65, listed((0, "a")), 'names file "a"')
    _answer(v, "node", of, 66, struct.pack("<BQQ", 0, 0, 5), "node file moment 0 size 5")
    v.about("The conversation of docs/PROTOCOL.md, and empty fields.")
    of = "docs::PROTOCOL"
    _answer(v, "talk-get", of, 64, data(b"bye"), 'data "bye"')
    _answer(v, "talk-read", of, 64, data(b"ell"), 'data "ell"')
    _answer(v, "talk-stat", of, 66, struct.pack("<BQQ", 1, 0, 1), "node directory moment 0 size 1")
    _answer(v, "an-empty-file", of, 64, data(b""), "data")
    _answer(v, "an-empty-directory", of, 65, listed(), "names")
    _answer(v, "two-names", of, 65, listed((1, "d"), (0, "\u00E9")), 'names directory "d" file C3A9')
    for cause in range(52, 59):
        _answer(v, f"malformed-{cause}", of, 38, struct.pack("<H", cause), f"malformed {cause}")
    return v


def _answer(v: Vectors, name: str, of: str, code: int, body: bytes, said: str) -> None:
    v.case(name, of, "bytes " + digits(frame(struct.pack("<H", code) + body)), f"answer -> {said}")


