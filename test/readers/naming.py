"""How readers show names that they cannot show as they are."""

from __future__ import annotations

from typing import List

MARK = "#"
EXTENSION = 5


def remainder(data: bytes) -> int:
    """The CRC of ECMA-167 7.2.6, bit by bit."""
    value = 0
    for byte in data:
        value ^= byte << 8
        for _ in range(8):
            value = (value << 1 ^ (0x1021 if value & 0x8000 else 0)) & 0xFFFF
    return value


def check(data: bytes) -> str:
    return "%s%04X" % (MARK, remainder(data))


def linux(name: str) -> bytes:
    """Linux gives 254 bytes to a name in UTF-8: of a longer one it shows a beginning, a check and the extension.

    So it does with a name that has nothing but one or two dots before its extension.
    """
    most = 254
    narrow = all(ord(letter) <= 0xFF for letter in name)
    spelled = name.encode("latin-1" if narrow else "utf-16-be")
    dot = name.rfind(".")
    if dot < 0 or not 1 <= len(name) - dot - 1 < EXTENSION:
        dot = len(name)
    base, extension = name[:dot], name[dot:].encode()
    shown = base.encode()
    if len(shown) + len(extension) <= most and base not in (".", ".."):
        return shown + extension
    room = most - len(extension) - 5
    while len(base.encode()) > room:
        base = base[:-1]
    return base.encode() + check(spelled).encode() + extension


def plain(letter: str) -> bool:
    return " " <= letter <= "~" and letter != "/"


def folded(letters: str) -> str:
    """Other letters than the printable ones of ASCII, each run of them as one underscore."""
    out: List[str] = []
    for at, letter in enumerate(letters):
        if plain(letter):
            out.append(letter)
        elif at == 0 or plain(letters[at - 1]):
            out.append("_")
    return "".join(out)


def udfclient(name: str) -> bytes:
    """udfclient shows printable ASCII alone, by the translation that UDF 2.01 6.7 proposes."""
    shown = folded(name)
    if all(map(plain, name)):
        return shown.encode()
    dot = name.rfind(".")
    if dot < 0 or not 1 <= len(name) - dot - 1 <= EXTENSION:
        dot = len(name)
    return (folded(name[:dot]) + check(name.encode("utf-16-be")) + folded(name[dot:])).encode()
