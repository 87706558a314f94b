"""Texts on the medium (name.txt)."""

import layouts
from writing import Vectors, digits, shown, told

TEXTS = "codec_tests::texts::"
FIRST = "codec_tests::first_faults::"

WIDE = "\U0001F600"
DISC = layouts.dstring("DISC", 32)

# The numbers of the faults of a text, and of a spelling.
EMPTY, DOT, SLASH, NUL, UNSPELLED, LONG = 1, 2, 3, 4, 5, 6
COMPRESSION, ODD, NOT_SHORTEST, SURROGATE, COUNT, TAIL = 11, 12, 13, 14, 15, 16


def texts() -> Vectors:
    v = Vectors("name.txt", "Texts on the medium: spellings in compressed Unicode, dstrings, names and labels. A text is shown by "
                "its UTF-8, `empty` is the one without a character. A question with a text writes it, one without reads the bytes.")
    _spellings(v)
    _dstrings(v)
    _names(v)
    _labels(v)
    return v


def _spellings(v: Vectors) -> None:
    v.about("Spellings (UDF 2.01 2.1.1): each text has one (docs/FORMAT.md, Compressed Unicode).")
    for name, text, data in [
        ("no-character", "", ""), ("a-letter", "a", "0861"), ("of-one-byte", "\u00E9", "08E9"), ("of-two-bytes", "\u0101", "100101"),
        ("one-and-two-bytes", "a\u0101", "1000610101"), ("u-ffff", "\uFFFF", "10FFFF"),
    ]:
        assert layouts.spelling(text) == bytes.fromhex(data)
        v.case(f"spelling-{name}", TEXTS + "spellings_are_written_and_read", f"bytes {data}", f"spelling -> {told(text)}",
               *([f"spelling {told(text)} -> {shown(bytes.fromhex(data))}"] if text else []))
    v.about("Characters that cannot be encoded: past U+FFFF, the byte order mark, and U+FFFE. A field stays as it was.")
    for name, text in [("past-u-ffff", WIDE), ("the-byte-order-mark", "a\uFEFF"), ("u-fffe", "\uFFFE")]:
        v.case(f"no-spelling-{name}", TEXTS + "characters_without_a_spelling_are_refused", f"spelling {told(text)} -> fault {UNSPELLED}",
               f"dstring 32 {told(text)} -> fault {UNSPELLED}")
    v.about("Bytes that encode nothing.")
    for data, fault in [
        ("100041", NOT_SHORTEST), ("08", NOT_SHORTEST), ("10", NOT_SHORTEST), ("1041", ODD), ("10D800", SURROGATE),
        ("10DFFF", SURROGATE), ("10FEFF", SURROGATE), ("10FFFE", SURROGATE), ("0941", COMPRESSION), ("FE41", COMPRESSION),
        ("00", COMPRESSION),
    ]:
        v.case(f"no-text-{data.lower()}", TEXTS + "bytes_that_spell_nothing_are_refused " + FIRST + "of_a_spelling", f"bytes {data}",
               f"spelling -> fault {fault}")
    v.about("The first of two faults. The second one alone is above.")
    for both, fault in SPELLINGS:
        v.case(f"two-faults-{both.hex()}", FIRST + "of_a_spelling", "bytes " + digits(both), f"spelling -> fault {fault}")


# Bytes with two faults of a spelling, and the first of them.
SPELLINGS = [(b"\x11\x41", COMPRESSION), (b"\x10\x00\x41\x00", ODD), (b"\x10\xD8\x00\x41", ODD)]


def _dstrings(v: Vectors) -> None:
    v.about("Dstrings (ECMA-167 1/7.2.12): the spelling, zeros, and the count of its bytes in the last one.")
    of = TEXTS + "fields_are_written_and_read"
    v.case("dstring-disc", of, "bytes " + digits(DISC), 'dstring -> "DISC"', 'dstring 32 "DISC" -> ' + digits(DISC))
    v.case("dstring-empty", of, "bytes 00*32", "dstring -> empty", "dstring 32 empty -> 00*32")
    v.case("dstring-without-room", of, 'dstring 3 "ab" -> fault 6')
    v.case("dstring-that-just-fits", of, "bytes 086102", 'dstring -> "a"', 'dstring 3 "a" -> 086102')
    of = TEXTS + "fields_with_a_fault_are_refused"
    for name, at, byte, fault in [("counts-itself", 31, 32, COUNT), ("ends-in-more", 30, 1, TAIL), ("spells-nothing", 0, 9, COMPRESSION)]:
        v.case(f"dstring-that-{name}", of, "bytes " + digits(layouts.changed(DISC, [(at, byte)])), f"dstring -> fault {fault}",
               "label -> none")
    v.about("The first of two faults of a dstring: bytes that encode no text come after the count and the zeros.")
    for name, front, count, fault in [("the-text-alone", b"\x09\x41", 2, COMPRESSION), ("the-count", b"\x09\x41", 32, COUNT),
                                      ("the-zeros", b"\x09\x41", 1, TAIL)]:
        v.case(f"dstring-by-{name}", FIRST + "of_a_field", "bytes " + digits(layouts.fill(front, 31) + bytes([count])),
               f"dstring -> fault {fault}")
    for data, fault in SPELLINGS:
        v.case(f"dstring-of-{data.hex()}", FIRST + "of_a_field", "bytes " + digits(layouts.fill(data, 31) + bytes([len(data)])),
               f"dstring -> fault {fault}")


def _names(v: Vectors) -> None:
    v.about("Names in a directory (UDF 2.01 2.3.4.6): at most 255 bytes encoded.")
    for name, text in [("a", "a"), ("three-dots", "..."), ("of-two-bytes", "\u00E9\u0101"), ("of-254-letters", "a" * 254), ("b", "b")]:
        spelled = layouts.spelling(text)
        letters = "61*254" if len(text) > 200 else told(text)
        v.case(f"name-{name}", TEXTS + "names_are_read", "bytes " + digits(spelled), f"name -> {told(text)}",
               f"name {letters} -> {shown(spelled)}")
    v.case("no-name-with-a-slash", TEXTS + "names_are_read", "bytes 08612F", "name -> none")
    v.case("no-name-in-two-spellings", TEXTS + "names_are_read", "bytes 100061", "name -> none")
    v.about("Texts that are no names, by the first of their faults: empty, `.` or `..`, a slash, a zero, not encodable, too long.")
    for name, words, fault in [
        ("empty", "empty", EMPTY), ("a-dot", '"."', DOT), ("two-dots", '".."', DOT), ("slash-zero-wide", "F09F9880 00 2F", SLASH),
        ("zero-wide", "F09F9880 00", NUL), ("wide", "F09F9880", UNSPELLED), ("long", "61*255", LONG),
    ]:
        v.case(f"no-name-{name}", TEXTS + "texts_that_are_no_names_are_refused", f"name {words} -> fault {fault}")
    _first(v, "name", [(SLASH, '"/"'), (NUL, "00"), (UNSPELLED, "F09F9880"), (LONG, "61*255")], FIRST + "of_a_name")


def _first(v: Vectors, kind: str, faults: "list[tuple[int, str]]", of: str) -> None:
    v.about(f"The first of two faults of a {kind}, whatever comes first in the text. `Empty` and a dot occur alone.")
    for fault, words in faults:
        v.case(f"{kind}-fault-{fault}", of, f"{kind} {words} -> fault {fault}")
    for (fault, words), (other, more) in zip(faults, faults[1:]):
        v.case(f"{kind}-fault-{fault}-and-{other}", of, f"{kind} {more} {words} -> fault {fault}")


def _labels(v: Vectors) -> None:
    v.about("Labels: a text of at most 31 bytes encoded, as a dstring of 32 bytes and of 128 bytes (ECMA-167 3/10.1.4, 3/10.6.4).")
    of = TEXTS + "labels_are_kept"
    wide = layouts.dstring("DISC", 128)
    v.case("label-disc", of, "bytes " + digits(DISC), 'label -> "DISC"', 'label "DISC" -> ' + digits(DISC))
    v.case("label-disk", of, "bytes " + digits(layouts.dstring("DISK", 32)), 'label -> "DISK"')
    v.case("label-in-128-bytes", of, "bytes " + digits(wide), 'label -> "DISC"')
    v.case("no-label-in-64-bytes", of, "bytes " + digits(wide[:64]), "label -> none")
    v.case("no-label-without-a-character", of, "bytes 00*32", "label -> none")
    for letters, label in [(30, told("a" * 30)), (31, "none")]:
        name = f"a-label-of-{letters}-letters-in-128-bytes"
        v.case(name, of, "bytes " + digits(layouts.dstring("a" * letters, 128)), f"label -> {label}")
    v.about("The volume set identifier (UDF 2.01 2.2.2.5): sixteen digits, and the label after them.")
    of = TEXTS + "labels_stand_behind_digits"
    for name, text, count in [("disc", "DISC", 21), ("of-two-bytes", "\u0101", 35)]:
        data = layouts.dstring("0123456789abcdef" + text, 128)
        assert data[127] == count
        v.case(f"set-identifier-{name}", of, "bytes " + digits(data), f"set-identifier -> {told(text)}")
    v.about("Texts that are no labels.")
    for name, words, fault in [("empty", "empty", EMPTY), ("zero", '"a" 00', NUL), ("wide", "F09F9880", UNSPELLED), ("long", "61*31", LONG)]:
        v.case(f"no-label-{name}", TEXTS + "texts_that_are_no_labels_are_refused", f"label {words} -> fault {fault}")
    v.case("label-of-30-letters", TEXTS + "texts_that_are_no_labels_are_refused", "label 61*30 -> " + digits(layouts.dstring("a" * 30, 32)))
    _first(v, "label", [(NUL, "00"), (UNSPELLED, "F09F9880"), (LONG, "61*31")], FIRST + "of_a_label")
