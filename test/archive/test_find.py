"""What `find` finds by its index and its look-ups is what a plain comparison of all files finds."""

from __future__ import annotations

import os
import random
import sqlite3
import subprocess
import sys
import time
import unittest
from fnmatch import fnmatchcase
from typing import Dict, Iterator, List, Set, Tuple
from unittest import mock

from .servers import Server
from .support import LARGE, PACKAGE, WithArchive, environment, kill, wait_until, write

sys.path.insert(0, PACKAGE)

from udfburn.archive import base, find  # noqa: E402
from udfburn.archive.catalogue import Catalogue, Held, VolumeRow  # noqa: E402
from udfburn.archive.config import read  # noqa: E402
from udfburn.archive.errors import CatalogueError  # noqa: E402
from udfburn.archive.names import kept_name, name_back  # noqa: E402
from udfburn.archive.patterns import LIKE_ESCAPE, glob, like, pattern_pieces, trigrams  # noqa: E402
from udfburn.protocol import Path  # noqa: E402
from udfburn.protocol.units import Commit, Moment, Size

WORDS = ("holi", "day", "a", "b", "ab", "IMG", "img", "2019", ".jpg", "é", "日本", "\U0001f4f7", "[", "]", "!", "-", "*", "?", "%", "_", "\\", "\udcff", "\n", " ")
WILD = ("*", "*", "*", "?", "[ab]", "[!ab]", "[a-y]", "[]]", "[!]]", "[", "[!", "]", "[[]", "[*]", "[?]")

LAST = ("\udcff*", "*\udcff", "holi\udcff*", "*\udcffday")
"""Patterns that begin or end with what the catalogue has as the last letter of all."""

PATTERNS = 150 if LARGE else 50

Files = Dict[int, Held]

WRITER = """
import sys
from udfburn.archive.catalogue import Catalogue, Held, VolumeRow
from udfburn.archive.config import read
config, number, commit = read(sys.argv[1]), int(sys.argv[2]), int(sys.argv[3])
with Catalogue(config) as catalogue:
    volume = VolumeRow(number, f"T-{number:06}", "open", config.id, 1000, 1)
    while True:
        rows = [Held(number, commit + i, ("d", f"name {number} of {commit + i} it"), 1, 1, bytes(32), 1) for i in range(100)]
        catalogue.add(volume, rows)
        commit += 100
        print(commit, flush=True)
"""
"""Keeps rows, a hundred at once, until it is killed."""


def some_name(chance: random.Random) -> str:
    while True:
        name = "".join(chance.choice(WORDS) for _ in range(chance.randrange(1, 7)))
        if name not in ("", ".", ".."):
            return name


def some_pattern(chance: random.Random, name: str) -> str:
    """A pattern that is near a name: pieces of it between wildcards, or of other words."""
    kind = chance.randrange(10)
    if kind == 0:
        return "".join(chance.choice(WORDS + WILD) for _ in range(chance.randrange(1, 6)))
    starts = sorted(chance.sample(range(len(name)), min(len(name), chance.randrange(1, 4))))
    pattern = chance.choice(WILD).join(name[at : at + chance.randrange(2, 8)] if chance.random() < 0.95 else chance.choice(WORDS) for at in starts)
    return ("" if kind == 1 else "*") + pattern + ("" if kind == 2 else "*")


class Ways(WithArchive):
    """`find` by the index, beside a comparison of all files."""

    def setUp(self) -> None:
        super().setUp()
        self.chance = random.Random(46)
        self.files: Files = {}
        self.folders = [tuple(some_name(self.chance) for _ in range(depth % 4)) for depth in range(12)]
        self.begin()

    def begin(self) -> None:
        self.init()

    def patch(self, module: object, name: str, value: int) -> None:
        patched = mock.patch.object(module, name, value)
        patched.start()
        self.addCleanup(patched.stop)

    def keep(self, catalogue: Catalogue, number: int, count: int) -> None:
        """More files of a volume."""
        last = max((held.commit for held in self.files.values() if held.volume == number), default=10)
        volume = VolumeRow(number, f"T-{number:06}", "open", catalogue.config.id, 1000, Moment(1))
        rows = []
        for commit in range(last + 1, last + 1 + count):
            path = (*self.chance.choice(self.folders), some_name(self.chance))
            if self.files and self.chance.random() < 0.1:
                path = self.chance.choice(list(self.files.values())).path
            rows.append(Held(number, Commit(commit), path, Size(1), Moment(commit), bytes(32), Moment(1)))
        catalogue.add(volume, rows)
        self.files.update({row.id(): row for row in rows})

    def forget(self, catalogue: Catalogue, number: int, share: float) -> None:
        """Some files of a volume are on it no more, and others are there as well."""
        rows = [held for held in self.files.values() if held.volume == number and self.chance.random() > share]
        rows += [Held(number, Commit(9000 + index), ("late", some_name(self.chance) + "late"), Size(1), Moment(1), bytes(32), Moment(1)) for index in range(20)]
        catalogue.replace(VolumeRow(number, f"T-{number:06}", "open", catalogue.config.id, 1000, Moment(1)), rows)
        self.files = {id: held for id, held in self.files.items() if held.volume != number}
        self.files.update({row.id(): row for row in rows})

    def plainly(self, pattern: str) -> List[Path]:
        paths: Set[Path] = {held.path for held in self.files.values()}
        kept = kept_name(pattern)
        if kept.startswith("/"):
            return sorted(path for path in paths if fnmatchcase("".join("/" + kept_name(name) for name in path), kept))
        return sorted(path for path in paths if fnmatchcase(kept_name(path[-1]), kept))

    def require_same(self, catalogue: Catalogue, count: int) -> Tuple[int, int]:
        """Compares so many patterns; gives how many were answered by the index, and how many of those found a file."""
        used = hits = 0
        held = list(self.files.values())
        plain = find.named
        for turn in range(count):
            asked: List[bool] = []

            def named(of: Catalogue, wanted: base.Range, pattern: str) -> Iterator[base.Row]:
                asked.append(wanted == of.base.matching(pattern) and bool(trigrams(pattern)))
                return plain(of, wanted, pattern)

            path = self.chance.choice(held).path
            pattern = some_pattern(self.chance, path[-1])
            if self.chance.random() < 0.15:
                pattern = "/" + some_pattern(self.chance, "/".join(path))
            if turn < len(LAST):
                pattern = LAST[turn]
            with mock.patch.object(find, "named", named):
                found = list(find.matching_paths(catalogue, pattern))
            self.assertEqual(sorted(found), self.plainly(pattern), pattern)
            self.assertEqual(len(found), len(set(found)), pattern)
            used += any(asked)
            hits += any(asked) and bool(found)
        return used, hits


class WaysInFile(Ways):
    """With SQLite."""

    def test_random_names_and_patterns(self) -> None:
        self.patch(find, "FEW", 3)
        with Catalogue(read(self.archive)) as catalogue:
            for turn in range(4):
                for number in (2, 3, 4):
                    for _ in range(3):
                        self.keep(catalogue, number, 120)
                used, hits = self.require_same(catalogue, PATTERNS)
                self.assertGreater(used, PATTERNS // 8)
                self.assertGreater(hits, 0)
                if turn % 2:
                    self.forget(catalogue, 2 + turn // 2, 0.5)
                    self.require_same(catalogue, PATTERNS)
            catalogue.mend_names()
            self.require_same(catalogue, PATTERNS)

    def test_very_many_names(self) -> None:
        """More files of one pattern than a statement of SQLite has values, and each name in several folders."""
        with Catalogue(read(self.archive)) as catalogue:
            volume = VolumeRow(2, "T-000002", "open", catalogue.config.id, 1000, Moment(1))
            rows = [Held(2, Commit(10 + i), (f"d{i % 3}", f"a holiday of {i // 3}"), Size(1), Moment(1), bytes(32), Moment(1)) for i in range(36_000)]
            catalogue.add(volume, rows)
            self.assertEqual(sum(1 for _ in find.matching_paths(catalogue, "*holiday*")), 36_000)
            self.assertEqual(list(find.matching_paths(catalogue, "*day of 777")), [("d0", "a holiday of 777"), ("d1", "a holiday of 777"), ("d2", "a holiday of 777")])

    def test_writers_are_killed(self) -> None:
        commits = {2: 10, 3: 10, 4: 10}
        for turn in range(12 if LARGE else 3):
            writers = [
                subprocess.Popen([sys.executable, "-c", WRITER, self.archive, str(number), str(commits[number])], env=environment(), stdout=subprocess.PIPE)
                for number in commits
            ]
            with Catalogue(read(self.archive)) as catalogue:
                least = sum(commits.values())
                # Each is killed once there are more files; what is acknowledged by then is found, and while they write as well.
                wait_until(lambda: catalogue.base.run("SELECT count(*) FROM file")[0][0] > least + 2000)
                time.sleep(self.chance.uniform(0, 0.2))
                for writer in writers:
                    kill(writer)
                for number, writer in zip(commits, writers):
                    assert writer.stdout
                    lines = writer.stdout.read().split()
                    writer.stdout.close()
                    known = [held.commit for held in catalogue.of_volume(number)]
                    self.assertGreaterEqual(len(known), int(lines[-1]) - 10 if lines else 0)
                    commits[number] = max(known, default=9) + 1
                    found = [path for path in find.matching_paths(catalogue, f"*me {number} of*")]
                    self.assertEqual(len(found), len(known))
                    for commit in known[-1:]:
                        self.assertEqual(len(list(find.matching_paths(catalogue, f"*{number} of {commit} it*"))), 1)


class WaysOnServer(WaysInFile):
    """The same with PostgreSQL."""

    def begin(self) -> None:
        self.server = Server(self)
        self.init("--catalogue", self.server.new_base("archive"))

    def test_the_index_is_used(self) -> None:
        with Catalogue(read(self.archive)) as catalogue:
            volume = VolumeRow(2, "T-000002", "open", catalogue.config.id, 1000, Moment(1))
            catalogue.add(volume, [Held(2, Commit(10 + i), ("d", f"name {i * 7919 % 10007} of it"), Size(1), Moment(1), bytes(32), Moment(1)) for i in range(20_000)])
            catalogue.base.run("SET enable_seqscan = off")
            wanted = catalogue.base.matching("*e 7919*it")
            plan = catalogue.base.run(f"EXPLAIN SELECT path, name FROM by_name WHERE {wanted.where}", wanted.values)
            self.assertIn("file_trigrams", str(plan))

    def test_a_server_without_the_extension(self) -> None:
        """The owner of a database may create it, and who may not is told so."""
        self.server.sql("CREATE ROLE guest LOGIN")
        self.server.sql("CREATE DATABASE plain")
        self.server.sql("GRANT ALL ON SCHEMA public TO guest", "plain")
        url = self.server.url("plain").replace("//postgres@", "//guest@")
        self.assertIn("guest", url)
        done = self.run_in(self.path("other"), "init", self.path("other"), "--label", "T", "--catalogue", url, status=1)
        self.assertIn("the owner of the database runs 'CREATE EXTENSION pg_trgm'", done.errors)
        self.assertEqual(self.server.sql("SELECT count(*) FROM pg_tables WHERE schemaname = 'public'", "plain")[0][0], 0)


class Damages(Ways):
    """An index in SQLite that is damaged."""

    def damage(self, catalogue: Catalogue) -> None:
        """The index lacks names."""
        catalogue.base.run("INSERT INTO name_text (name_text) VALUES ('delete-all')")

    def test_a_damaged_index_is_made_again(self) -> None:
        with Catalogue(read(self.archive)) as catalogue:
            for _ in range(10):
                self.keep(catalogue, 2, 140)
            self.damage(catalogue)
            self.assertNotEqual(sorted(find.matching_paths(catalogue, "*day*")), self.plainly("*day*"))
        self.do("rebuild", "--dry-run")
        with Catalogue(read(self.archive)) as catalogue:
            self.assertNotEqual(sorted(find.matching_paths(catalogue, "*day*")), self.plainly("*day*"))
        self.do("rebuild")
        with Catalogue(read(self.archive)) as catalogue:
            self.require_same(catalogue, PATTERNS)

    def test_an_index_that_cannot_be_written_is_made_again(self) -> None:
        with Catalogue(read(self.archive)) as catalogue:
            for _ in range(10):
                self.keep(catalogue, 2, 140)
            # Blocks of the index, each a row of a table that SQLite finds no fault with.
            catalogue.base.run("UPDATE name_text_data SET block = zeroblob(length(block)) WHERE id > 10")
            self.assertEqual(catalogue.base.run("PRAGMA integrity_check"), [("ok",)])
            self.assertFalse(catalogue.base.has_whole_index())
        self.do("rebuild")
        with Catalogue(read(self.archive)) as catalogue:
            self.assertTrue(catalogue.base.has_whole_index())
            self.require_same(catalogue, PATTERNS)

    def test_an_index_that_is_none(self) -> None:
        """The catalogue is put aside, and made again from the volumes."""
        write(os.path.join(self.source, "holidays.txt"), b"1")
        self.add()
        with Catalogue(read(self.archive)) as catalogue:
            catalogue.base.run("DELETE FROM name_text_config")
        self.do("find", "*oliday*", status=1)
        self.do("rebuild")
        self.assertEqual(self.do("find", "*oliday*").last()["files"], 1)


class Reading(unittest.TestCase):
    def test_pieces(self) -> None:
        for pattern, wanted in {
            "*abc*": "*|abc|*", "a?b": "a|?|b", "x[ab]y": "x|?|y", "x[]]y": "x|?|y", "x[!]]y": "x|?|y", "x[!a]y": "x|?|y", "x[y": "x[y", "x[!y": "x[!y",
            "x[]y": "x[]y", "x[!]y": "x[!]y", "]x": "]x", "x[[]y": "x|?|y", "x[*]y*": "x|?|y|*", "": "", "[": "[", "[!": "[!", "[]": "[]", "a[b*c": "a[b|*|c",
        }.items():
            self.assertEqual("|".join(piece.text for piece in pattern_pieces(pattern)), wanted, pattern)

    def test_what_engines_are_asked(self) -> None:
        """LIKE and GLOB as SQLite has them let through what `fnmatch` does."""
        engine = sqlite3.connect(":memory:")
        self.addCleanup(engine.close)
        chance = random.Random(7)
        matched = 0
        for _ in range(20_000):
            name = kept_name(some_name(chance))
            pattern = kept_name(some_pattern(chance, some_name(chance) if chance.random() < 0.2 else name_back(name)))
            if fnmatchcase(name, pattern):
                matched += 1
                asked = (name, like(pattern), LIKE_ESCAPE, name, glob(pattern))
                self.assertEqual(engine.execute("SELECT ? LIKE ? ESCAPE ?, ? GLOB ?", asked).fetchone(), (1, 1), pattern)
        self.assertGreater(matched, 4000)

    def test_an_old_sqlite(self) -> None:
        with mock.patch.object(sqlite3, "sqlite_version_info", (3, 33, 0)), self.assertRaisesRegex(CatalogueError, "needs SQLite 3.34.0 or later"):
            base.SqliteBase("/nowhere", True)
