"""The SHA-256 that local files had when they were last read whole, by which `add --trust-times` knows them without reading them.

A file counts as the one that was read if its size, its times, its inode and its device are the same. What writes to it and then sets
its times back, as some programs do, also changes the time of its inode, which nobody can set; so only a file system that lies, or a
disk whose bytes change by themselves, goes unnoticed. The base is of no value to anyone else, and may be lost.
"""

from __future__ import annotations

import os
import sqlite3
from contextlib import suppress
from typing import Dict, List, Optional, Tuple

from ..base.beneath import is_own, new_given
from ..local.sources import Source
from .config import Config

SEEN_FILE = "seen.sqlite"

FILES_WAITING = 500
"""Files that are kept at once."""

MADE = """
CREATE TABLE IF NOT EXISTS seen (folder BLOB NOT NULL, name BLOB NOT NULL, identity TEXT NOT NULL, sha256 BLOB NOT NULL, PRIMARY KEY (folder, name))
WITHOUT ROWID
"""


class Seen:
    """The base of an archive's folder; what cannot be read of it was not seen."""

    def __init__(self, config: Config):
        path = config.path(SEEN_FILE)
        if not os.path.lexists(path):
            new_given(path, 0o600)
        # A link in its place is not followed: then all files are read.
        self._base = sqlite3.connect(path if is_own(path) else ":memory:", isolation_level=None, timeout=60)
        self._waiting: List[Tuple[bytes, bytes, str, bytes]] = []
        self._folder: Tuple[bytes, Dict[bytes, Tuple[str, bytes]]] = (b"", {})
        with suppress(sqlite3.Error):
            self._base.execute("PRAGMA journal_mode = WAL")
            self._base.execute("PRAGMA synchronous = NORMAL")
            self._base.execute(MADE)

    def close(self) -> None:
        self._flush()
        self._base.close()

    def digest(self, source: Source) -> Optional[bytes]:
        """The digest that a file had, if it is as it was."""
        if source.identity.changed is None:
            # Another name of the same file may go at any time, and its inode's time says nothing then.
            return None
        folder, name = key(source)
        if self._folder[0] != folder:
            self._folder = folder, self._read(folder)
        identity, digest = self._folder[1].get(name, ("", b""))
        return digest if identity == identity_of(source) and len(digest) == 32 else None

    def _read(self, folder: bytes) -> Dict[bytes, Tuple[str, bytes]]:
        with suppress(sqlite3.Error):
            return {row[0]: (row[1], row[2]) for row in self._base.execute("SELECT name, identity, sha256 FROM seen WHERE folder = ?", (folder,))}
        return {}

    def keep(self, source: Source, digest: bytes) -> None:
        """Keeps the digest of a file, all of which was read just now."""
        self._waiting.append((*key(source), identity_of(source), digest))
        if len(self._waiting) >= FILES_WAITING:
            self._flush()

    def _flush(self) -> None:
        with suppress(sqlite3.Error), self._base:
            self._base.execute("BEGIN IMMEDIATE")
            self._base.executemany("INSERT OR REPLACE INTO seen (folder, name, identity, sha256) VALUES (?, ?, ?, ?)", self._waiting)
        self._waiting = []


def key(source: Source) -> Tuple[bytes, bytes]:
    """The folder of a file, as the system has it, and its name."""
    root, names = source.place
    return os.fsencode(os.path.join(root.real(), *names[:-1])), os.fsencode(names[-1] if names else "")


def identity_of(source: Source) -> str:
    return " ".join(map(str, source.identity))


__all__ = ["SEEN_FILE", "Seen"]
