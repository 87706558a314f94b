"""Payloads, streams of frames, and paths (frame.txt)."""

import struct

from writing import Vectors, digits, shown, told

OLD = "base_tests::messages::"
FIRST = "codec_tests::first_faults::"

KINDS = {"create": 1, "replace": 2, "make": 3, "rename": 4, "remove": 5, "append": 6, "get": 16, "list": 17, "stat": 18, "read": 19}
LIMIT = 4_102_444_800_000_000
COUNT = 1_048_576


def path(*names: str) -> bytes:
    return bytes([len(names)]) + b"".join(struct.pack("<H", len(name.encode())) + name.encode() for name in names)


def request(kind: str, client: int, number: int, moment: int, *fields: bytes) -> bytes:
    return bytes([KINDS[kind]]) + struct.pack("<QQQ", client, number, moment) + b"".join(fields)


def data(content: bytes) -> bytes:
    return struct.pack("<I", len(content)) + content


def read(offset: int, count: int, *names: str) -> bytes:
    return bytes([KINDS["read"]]) + path(*names) + struct.pack("<QI", offset, count)


def append(offset: int, piece: bytes, *names: str, client: int = 7, number: int = 2, moment: int = 9) -> bytes:
    return request("append", client, number, moment, path(*names), struct.pack("<Q", offset), data(piece))


def frame(payload: bytes) -> bytes:
    return struct.pack("<I", len(payload)) + payload


CREATE = request("create", 7, 1, 0, path("a"), data(b"hello"))
SAID = 'create client 7 number 1 moment 0 path "a" data "hello"'
OVERLONG = bytes.fromhex("00000080")


def frames() -> Vectors:
    v = Vectors("frame.txt", "Requests and queries (docs/PROTOCOL.md). `payload` reads one payload, `frames` a stream, however it is cut, and `path` a "
                "path by its text. The names of a path are parted, and the root has none. What a payload says has no other payload.")
    _kinds(v)
    _faults(v)
    _order(v)
    _streams(v)
    _paths(v)
    return v


def _payload(v: Vectors, name: str, of: str, payload: bytes, answer: str) -> None:
    v.case(name, of, "bytes " + digits(payload), f"payload -> {answer}")


def _kinds(v: Vectors) -> None:
    v.about("The example of docs/PROTOCOL.md, and a payload of each kind.")
    assert frame(CREATE) == bytes.fromhex("26000000 01 0700000000000000 0100000000000000 0000000000000000 01010061 0500000068656C6C6F")
    _payload(v, "create", f"{OLD}the_first_fault_is_told {FIRST}of_a_payload", CREATE, SAID)
    of = OLD + "every_kind"
    _payload(v, "replace", of, request("replace", 7, 1, 0, path("a"), data(b"hello")), SAID.replace("create", "replace"))
    _payload(v, "make", of, request("make", 7, 2, 9, path("d")), 'make client 7 number 2 moment 9 path "d"')
    _payload(v, "rename", of, request("rename", 7, 2, 9, path("d"), path("e", "d")), 'rename client 7 number 2 moment 9 from "d" to "e" "d"')
    _payload(v, "remove-the-root", of, request("remove", 7, 2, 9, path()), "remove client 7 number 2 moment 9 path")
    _payload(v, "create-an-empty-file", of, request("create", 7, 1, 0, path("a"), data(b"")), 'create client 7 number 1 moment 0 path "a" data')
    of = "docs::PROTOCOL"
    said = "append client 7 number 2 moment 9"
    _payload(v, "append", of, append(COUNT, b"hello", "a"), f'{said} offset {COUNT} path "a" data "hello"')
    _payload(v, "append-one-byte-to-the-root", of, append(0, b"h"), f'{said} offset 0 path data "h"')
    _payload(v, "append-at-the-last-offset", of, append((1 << 64) - 1, b"h", "d", "b"), f'{said} offset {(1 << 64) - 1} path "d" "b" data "h"')
    of = OLD + "queries"
    _payload(v, "get", of, bytes([16]) + path("a"), 'get path "a"')
    _payload(v, "list", of, bytes([17]) + path(), "list path")
    _payload(v, "stat", of, bytes([18]) + path("a"), 'stat path "a"')
    of = "docs::PROTOCOL"
    _payload(v, "read", of, read(1, 3, "a"), 'read offset 1 count 3 path "a"')
    _payload(v, "read-nothing", of, read(0, 0, "a"), 'read offset 0 count 0 path "a"')
    _payload(v, "read-the-root", of, read(0, 1), "read offset 0 count 1 path")
    _payload(v, "read-a-piece", of, read(116 * COUNT, COUNT, "d", "b"), f'read offset {116 * COUNT} count {COUNT} path "d" "b"')
    _payload(v, "read-from-the-last-offset", of, read((1 << 64) - 1, COUNT, "a"), f'read offset {(1 << 64) - 1} count {COUNT} path "a"')
    v.about("The conversation of docs/PROTOCOL.md.")
    of = "docs::PROTOCOL"
    _payload(v, "talk-make", of, request("make", 7, 2, 0, path("d")), 'make client 7 number 2 moment 0 path "d"')
    _payload(v, "talk-rename", of, request("rename", 7, 3, 0, path("a"), path("d", "b")), 'rename client 7 number 3 moment 0 from "a" to "d" "b"')
    _payload(v, "talk-replace", of, request("replace", 7, 4, 0, path("d", "b"), data(b"bye")),
             'replace client 7 number 4 moment 0 path "d" "b" data "bye"')
    _payload(v, "talk-remove", of, request("remove", 7, 6, 0, path("d", "b")), 'remove client 7 number 6 moment 0 path "d" "b"')


def edited(at: int, put: bytes, behind: bytes = b"") -> bytes:
    """The create with other bytes from a place on, and bytes after it."""
    return CREATE[:at] + put + CREATE[at + len(put) :] + behind


def _faults(v: Vectors) -> None:
    v.about("Causes of `Malformed`, in the order of the fields.")
    of = OLD + "the_first_fault_is_told"
    for name, payload, cause in [
        ("kind-9", edited(0, b"\x09"), 52), ("client-0", edited(1, b"\0"), 57), ("number-0", edited(9, b"\0"), 58),
        ("client-0-and-number-0", edited(1, bytes(9)), 57), ("the-moment-at-its-limit", edited(17, struct.pack("<Q", LIMIT)), 56),
        ("a-byte-behind", edited(0, b"", b"\0"), 54), ("an-empty-name", edited(26, b"\0"), 55), ("a-name-that-is-no-text", edited(28, b"\xFF"), 55),
        ("a-slash-and-a-byte-behind", edited(28, b"/", b"\0"), 55), ("a-name-past-the-end", edited(26, b"\xFF\xFF"), 53),
        ("data-above-its-limit", edited(29, b"\x01\0\x10\0"), 54), ("data-at-its-limit-that-is-missing", edited(29, b"\0\0\x10\0"), 53),
    ]:
        _payload(v, name, of, payload, f"malformed {cause}")
    _payload(v, "the-last-moment", of, edited(17, struct.pack("<Q", LIMIT - 1)), SAID.replace("moment 0", f"moment {LIMIT - 1}"))
    one = read(1, 3, "a")
    for name, payload, cause in [
        ("read-no-kind-after-it", b"\x14" + one[1:], 52), ("read-a-byte-behind", one + b"\0", 54), ("read-above-the-limit", read(0, COUNT + 1, "a"), 54),
        ("read-above-the-limit-and-a-byte-behind", read(0, COUNT + 1, "a") + b"\0", 54), ("read-a-slash", read(0, COUNT + 1, "/"), 55),
    ]:
        _payload(v, name, "docs::PROTOCOL", payload, f"malformed {cause}")
    for length in range(1, len(one)):
        _payload(v, f"read-front-of-{length}", "docs::PROTOCOL", one[:length], "malformed 53")
    one = append(COUNT, b"hello", "a")
    length = len(one) - 9
    for name, payload, cause in [
        ("append-a-byte-behind", one + b"\0", 54), ("append-nothing", append(COUNT, b"", "a"), 54),
        ("append-nothing-and-a-byte-behind", append(COUNT, b"", "a") + b"h", 54),
        ("append-above-the-limit", one[:length] + struct.pack("<I", COUNT + 1), 54),
        ("append-at-the-limit-that-is-missing", one[:length] + struct.pack("<I", COUNT), 53),
        ("append-the-highest-length", one[:length] + b"\xff" * 4, 54), ("append-a-slash-and-nothing", append(0, b"", "/"), 55),
        ("append-by-client-0", append(0, b"", "/", client=0), 57), ("append-number-0", append(0, b"", "/", number=0), 58),
        ("append-at-the-moment-at-its-limit", append(0, b"", "/", moment=LIMIT), 56), ("kind-7", b"\x07" + one[1:], 52),
    ]:
        _payload(v, name, "docs::PROTOCOL", payload, f"malformed {cause}")
    for length in range(1, len(one)):
        _payload(v, f"append-front-of-{length}", "docs::PROTOCOL", one[:length], "malformed 53")
    v.about("Each prefix of the create ends inside a field or before one (53).")
    for length in range(len(CREATE)):
        _payload(v, f"front-of-{length}", OLD + "shorter_payloads", CREATE[:length], "malformed 53")


# The causes of a payload in the order of its fields, where the field ends, and what gives the cause.
ROWS = [(52, 1, [(0, 9)]), (57, 9, [(1, 0)]), (58, 17, [(9, 0)]),
        (56, 25, [(18, 0xC0), (19, 0x03), (20, 0xDD), (21, 0x26), (22, 0x93), (23, 0x0E)]), (55, 29, [(28, ord("/"))]),
        (54, 33, [(29, 1), (31, 16)])]


def _changed(*rows: "list[tuple[int, int]]") -> bytes:
    out = bytearray(CREATE)
    for changes in rows:
        for at, byte in changes:
            out[at] = byte
    return bytes(out)


def _order(v: Vectors) -> None:
    v.about("Each cause where all bytes after its field are missing, where its last byte is missing, and with the next one.")
    of = FIRST + "of_a_payload"
    for cause, end, changes in ROWS:
        _payload(v, f"cause-{cause}", of, _changed(changes), f"malformed {cause}")
        _payload(v, f"cause-{cause}-at-the-end", of, _changed(changes)[:end], f"malformed {cause}")
        _payload(v, f"cause-{cause}-without-its-last-byte", of, _changed(changes)[: end - 1], "malformed 53")
    for (cause, _, one), (other, _, more) in zip(ROWS, ROWS[1:]):
        _payload(v, f"causes-{cause}-and-{other}", of, _changed(one, more), f"malformed {cause}")
    _payload(v, "a-name-too-long-that-is-missing", of, _changed([(27, 1)]), "malformed 53")
    _payload(v, "data-of-four-bytes-and-one-behind", of, _changed([(29, 4)]), "malformed 54")
    _payload(v, "a-bad-name-and-a-byte-behind", of, _changed([(28, ord("/")), (29, 4)]), "malformed 55")


def _frames(v: Vectors, name: str, of: str, stream: bytes, *messages: str) -> None:
    v.case(name, of, "bytes " + digits(stream), "frames -> " + " ; ".join(messages))


def _streams(v: Vectors) -> None:
    v.about("Streams. Behind a length that no payload has nothing is read (51); `over` says so.")
    one = frame(CREATE)
    of = f"{OLD}a_frame_in_any_two_pieces {OLD}a_frame_byte_by_byte"
    _frames(v, "a-frame", of, one, SAID)
    _frames(v, "three-frames-and-no-length", of, one * 3 + OVERLONG, SAID, SAID, SAID, "malformed 51", "over")
    _frames(v, "nothing-behind-no-length", of, one + OVERLONG + one, SAID, "malformed 51", "over")
    _frames(v, "several-frames", OLD + "several_frames_in_one_piece", (one + frame(b"\x09")) * 5, *([SAID, "malformed 52"] * 5))
    queries = frame(bytes([16]) + path("a")) + frame(bytes([17]) + path()) + frame(bytes([18]) + path("a"))
    appends = frame(append(0, b"hello", "a")) + frame(append(0, b"", "a")) + frame(append(COUNT, b"h", "a", number=3))
    _frames(v, "appends", "docs::PROTOCOL", appends, 'append client 7 number 2 moment 9 offset 0 path "a" data "hello"', "malformed 54",
            f'append client 7 number 3 moment 9 offset {COUNT} path "a" data "h"')
    _frames(v, "queries", OLD + "queries", queries, 'get path "a"', "list path", 'stat path "a"')
    _frames(v, "an-empty-payload", OLD + "shorter_payloads", frame(b""), "malformed 53")
    of = OLD + "the_longest_payload"
    v.case("the-greatest-length", of, f"bytes u32:{1_114_112}", "frames ->")
    _frames(v, "a-length-above-it", of, struct.pack("<I", 1_114_113), "malformed 51", "over")
    _frames(v, "half-a-frame", OLD + "a_frame_byte_by_byte", one + one[:20], SAID)


def _paths(v: Vectors) -> None:
    v.about("Paths by their text: `/` alone, or 1 to 255 names, each after a `/`.")
    of = OLD + "path_texts"
    v.case("path-of-the-root", of, 'bytes "/"', "path -> path")
    v.case("path-of-two-names", of, 'bytes "/d/x"', 'path -> path "d" "x"')
    for name, text in [("empty", ""), ("relative", "a"), ("relative-of-two", "a/b"), ("two-slashes", "//"), ("a-slash-behind", "/a/"),
                       ("a-name-without-letters", "/a//b"), ("a-dot", "/."), ("two-dots", "/.."), ("a-zero", "/a/\0")]:
        v.case(f"no-path-{name}", of, f"bytes {shown(text.encode())}", "path -> fault 55")
    v.case("path-of-255-names", of, "bytes 2F6E*255", "path -> path " + " ".join([told("n")] * 255))
    v.case("no-path-of-256-names", of, "bytes 2F6E*256", "path -> fault 55")
