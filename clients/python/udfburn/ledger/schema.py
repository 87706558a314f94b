"""The tables of a ledger, and how one of an earlier version becomes one of this version."""

from __future__ import annotations

import sqlite3

from ..protocol import Fault, Kind, Request, decode_message, limits
from .records import FACTS, ORIGIN, PLACES, facts_of, facts_row

LEDGER_VERSION = 6
"""The version of the tables that this program makes. Those of versions 3 to 5 are the same. Versions 3 and 4 have places for four frames of a
volume; version 4 has appends. Versions 4 and 5 have the SHA-256 of an append's data, in place of that of its file up to the end of this."""

SCHEMA = """
CREATE TABLE ledger (version INTEGER NOT NULL, client TEXT NOT NULL);
CREATE TABLE volume (
    id INTEGER PRIMARY KEY,
    way TEXT NOT NULL,
    latest INTEGER NOT NULL,
    made REAL NOT NULL,
    unsettled INTEGER NOT NULL DEFAULT 0,
    label TEXT,
    formatted INTEGER,
    capacity INTEGER,
    mark_commit INTEGER,
    mark_address INTEGER,
    mark_check BLOB
);
CREATE TABLE way (way TEXT PRIMARY KEY, volume INTEGER NOT NULL REFERENCES volume (id)) WITHOUT ROWID;
CREATE TABLE found (
    volume INTEGER NOT NULL REFERENCES volume (id),
    number INTEGER NOT NULL,
    code INTEGER NOT NULL,
    commit_number INTEGER NOT NULL,
    PRIMARY KEY (volume, number)
) WITHOUT ROWID;
CREATE TABLE request (
    volume INTEGER NOT NULL REFERENCES volume (id),
    number INTEGER NOT NULL,
    path TEXT NOT NULL,
    code INTEGER,
    commit_number INTEGER,
    confirmed INTEGER NOT NULL DEFAULT 0,
    kind INTEGER,
    target TEXT,
    size INTEGER,
    moment INTEGER,
    sha256 BLOB,
    whole_path TEXT,
    whole_size INTEGER,
    whole_sha256 BLOB,
    PRIMARY KEY (volume, number)
) WITHOUT ROWID;
CREATE TABLE frame (id INTEGER PRIMARY KEY, payload BLOB NOT NULL, origin BLOB, start INTEGER, size_then INTEGER, modified INTEGER);
"""
"""`way` says which volume is at each way; several may lead to one. `found` has the replies that a volume kept when it was first met,
of requests that this ledger did not send. The frames of a volume are those of its last `PLACES` requests. One with an `origin` has no
data: that local file, of this size and time of modification, has it from its byte `start` on."""

KEPT_FRAME = f"""
INSERT INTO frame (id, payload, {', '.join(ORIGIN)}) VALUES (?, ?{', ?' * len(ORIGIN)}) ON CONFLICT (id) DO UPDATE
SET payload = excluded.payload, {', '.join(f'{name} = excluded.{name}' for name in ORIGIN)}
"""
"""Writes a payload over an older one, in the pages of that where both have one size."""

ORIGINS = """
ALTER TABLE frame ADD COLUMN origin BLOB;
ALTER TABLE frame ADD COLUMN start INTEGER;
ALTER TABLE frame ADD COLUMN size_then INTEGER;
ALTER TABLE frame ADD COLUMN modified INTEGER;
"""
"""What makes version 3 of version 2."""

UPGRADE = """
ALTER TABLE volume ADD COLUMN unsettled INTEGER NOT NULL DEFAULT 0;
ALTER TABLE volume ADD COLUMN label TEXT;
ALTER TABLE volume ADD COLUMN formatted INTEGER;
ALTER TABLE volume ADD COLUMN capacity INTEGER;
ALTER TABLE volume ADD COLUMN mark_commit INTEGER;
ALTER TABLE volume ADD COLUMN mark_address INTEGER;
ALTER TABLE volume ADD COLUMN mark_check BLOB;
ALTER TABLE request ADD COLUMN kind INTEGER;
ALTER TABLE request ADD COLUMN target TEXT;
ALTER TABLE request ADD COLUMN size INTEGER;
ALTER TABLE request ADD COLUMN moment INTEGER;
ALTER TABLE request ADD COLUMN sha256 BLOB;
ALTER TABLE request ADD COLUMN whole_path TEXT;
ALTER TABLE request ADD COLUMN whole_size INTEGER;
ALTER TABLE request ADD COLUMN whole_sha256 BLOB;
CREATE TABLE way (way TEXT PRIMARY KEY, volume INTEGER NOT NULL REFERENCES volume (id)) WITHOUT ROWID;
CREATE TABLE found (
    volume INTEGER NOT NULL REFERENCES volume (id),
    number INTEGER NOT NULL,
    code INTEGER NOT NULL,
    commit_number INTEGER NOT NULL,
    PRIMARY KEY (volume, number)
) WITHOUT ROWID;
INSERT INTO way (way, volume) SELECT way, max(id) FROM volume GROUP BY way;
UPDATE volume SET unsettled = 1;
"""
"""What makes version 2 of version 1. There a way was of the volume that was met on it last. Its two tables are in SCHEMA too: these are
those of version 2, and stay as they are where a later version changes SCHEMA."""

APPENDS = f"""
UPDATE request SET sha256 = CASE WHEN whole_size = size THEN whole_sha256 END, whole_path = NULL, whole_size = NULL, whole_sha256 = NULL
WHERE kind = {int(Kind.APPEND)}
"""
"""What is known of the files of appends before version 6: the request of the last piece has the SHA-256 of all of its file."""

LAST_FRAMES = f"""
FROM request JOIN frame ON frame.id = volume * {limits.REPLIES} + number % {limits.REPLIES}
WHERE number > (SELECT max(number) FROM request AS other WHERE other.volume = request.volume) - {limits.REPLIES}
"""
"""The frames of the last four requests, where versions before 5 had them."""


def frame_place(volume: int, number: int) -> int:
    """Where the frame of a request is kept."""
    return volume * PLACES + number % PLACES


def statements(script: str) -> "list[str]":
    """The statements of a script."""
    return [statement for statement in (part.strip() for part in script.split(";\n")) if statement]


def upgrade(base: sqlite3.Connection, version: int) -> None:
    """Makes a ledger of an earlier version one of this version, all at once or not at all. What the frames of the last four requests say
    is kept beside them; of older ones version 1 has the path and the reply alone."""
    base.execute("BEGIN IMMEDIATE")
    try:
        if version == 1:
            for statement in statements(UPGRADE):
                base.execute(statement)
            keep_facts(base)
        for statement in statements(ORIGINS) if version < 3 else []:
            base.execute(statement)
        if version < 5:
            move_frames(base)
        base.execute(APPENDS)
        base.execute("UPDATE ledger SET version = ?", (LEDGER_VERSION,))
        base.execute("COMMIT")
    finally:
        if base.in_transaction:
            base.execute("ROLLBACK")


def keep_facts(base: sqlite3.Connection) -> None:
    """Keeps beside each request what its frame says, where the frame is its own."""
    setting = ", ".join(f"{name} = ?" for name in FACTS)
    for volume, number, payload in base.execute(f"SELECT volume, number, payload {LAST_FRAMES}").fetchall():
        try:
            message = decode_message(payload)
        except Fault:
            continue
        if isinstance(message, Request) and message.number == number:
            base.execute(f"UPDATE request SET {setting} WHERE volume = ? AND number = ?", (*facts_row(facts_of(message)), volume, number))


def move_frames(base: sqlite3.Connection) -> None:
    """Gives the frames of requests without a reply the places that they have from version 5 on. Nobody asks for the others."""
    rows = base.execute(f"SELECT volume, number, payload, {', '.join(ORIGIN)} {LAST_FRAMES} AND code IS NULL").fetchall()
    base.execute("DELETE FROM frame")
    base.executemany(KEPT_FRAME, [(frame_place(volume, number), *frame) for volume, number, *frame in rows])


__all__ = ["KEPT_FRAME", "LEDGER_VERSION", "SCHEMA", "frame_place", "statements", "upgrade"]
