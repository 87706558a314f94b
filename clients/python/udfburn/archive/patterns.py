"""Patterns of names, as `fnmatch` reads them, and what an engine is asked in their place. Each of these lets through all names that
the pattern matches, and maybe others."""

from __future__ import annotations

from typing import Iterator, List, NamedTuple, Tuple

LIKE_ESCAPE = "!"
"""What is before a letter of a LIKE that would be a wildcard."""

TRIGRAMS_ASKED = 8
"""The most trigrams of a pattern that are asked for."""


class Piece(NamedTuple):
    """A part of a pattern: letters, or one wildcard, `*` or `?`. A set is any one letter."""

    text: str
    wild: bool


def wildcard(pattern: str, at: int) -> Tuple[str, int]:
    """The wildcard at a place of a pattern, and where it ends. It is empty where a letter is there, as a bracket that is not closed is."""
    if pattern[at] != "[":
        return pattern[at] if pattern[at] in "*?" else "", at + 1
    # The first letter of a set may be its closing bracket.
    close = pattern.find("]", at + (3 if pattern[at + 1 : at + 2] == "!" else 2))
    return ("?", close + 1) if close >= 0 else ("", at + 1)


def pattern_pieces(pattern: str) -> Iterator[Piece]:
    """The parts of a pattern."""
    run, at = "", 0
    while at < len(pattern):
        wild, end = wildcard(pattern, at)
        if not wild:
            run += pattern[at]
        else:
            if run:
                yield Piece(run, False)
            yield Piece(wild, True)
            run = ""
        at = end
    if run:
        yield Piece(run, False)


def trigrams(pattern: str) -> List[str]:
    """Letters in a row, three each, that all names of the pattern have: some of all its parts, where they are many."""
    runs = [piece.text for piece in pattern_pieces(pattern) if not piece.wild]
    found = sorted({run[at : at + 3] for run in runs for at in range(len(run) - 2)})
    return [found[index * len(found) // TRIGRAMS_ASKED] for index in range(TRIGRAMS_ASKED)] if len(found) > TRIGRAMS_ASKED else found


def match(pattern: str) -> str:
    """The pattern for MATCH of FTS5. Its own GLOB ends the process in SQLite 3.40, where a part has two letters of several bytes."""
    return " AND ".join('"' + letters.replace('"', '""') + '"' for letters in trigrams(pattern))


def like(pattern: str) -> str:
    """The pattern for LIKE, with its ESCAPE."""
    wild = {"*": "%", "?": "_"}
    letters = {letter: LIKE_ESCAPE + letter for letter in ("%", "_", LIKE_ESCAPE)}
    return "".join(wild[piece.text] if piece.wild else "".join(letters.get(letter, letter) for letter in piece.text) for piece in pattern_pieces(pattern))


def glob(pattern: str) -> str:
    """The pattern for SQLite's GLOB. It has no escape, so a bracket that is a letter is any letter."""
    return "".join(piece.text if piece.wild else piece.text.replace("[", "?") for piece in pattern_pieces(pattern))


__all__ = ["LIKE_ESCAPE", "Piece", "glob", "like", "match", "pattern_pieces", "trigrams"]
