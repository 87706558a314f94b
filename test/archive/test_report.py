"""The page of an archive, as a real browser shows it."""

from __future__ import annotations

import html
import os
import re
import shutil
import sqlite3
import subprocess
from typing import List

from .support import PATIENCE, WithArchive, make_tree, write

BROWSER = next((path for path in map(shutil.which, ("chromium", "chromium-browser", "google-chrome")) if path), None)


class Report(WithArchive):
    def page(self) -> str:
        path = self.path("report.html")
        self.do("report", path)
        return path

    def shown(self, page: str, state: str = "") -> str:
        """What the browser has made of the page, without a network."""
        if BROWSER is None:
            self.skipTest("no browser: Debian has chromium")
        assert BROWSER
        words = [BROWSER, "--headless", "--no-sandbox", "--disable-gpu", "--proxy-server=127.0.0.1:9", f"--user-data-dir={self.path('browser')}", "--dump-dom"]
        done = subprocess.run([*words, f"file://{page}#{state}"], check=True, capture_output=True, timeout=PATIENCE)
        return done.stdout.decode()

    def texts(self, shown: str, place: str) -> List[str]:
        """The texts of the elements with an ID, in order."""
        (inner,) = re.findall(rf'id="{place}"[^>]*>(.*?)</(?:div|tbody|ul)>\s*(?:</section>|</table>|</header>)', shown, re.S)
        return [html.unescape(text) for text in re.findall(r">([^<>]+)<", ">" + inner + "<") if text.strip()]

    def test_what_it_shows(self) -> None:
        self.init()
        make_tree(self.source, 60, 61)
        evil = "</script><b>&amp;\"'"
        write(os.path.join(self.source, "f", evil.replace("/", "-")), b"evil")
        self.add()
        self.do("close")
        write(os.path.join(self.source, "late.txt"), b"late")
        self.add()
        page = self.page()
        with open(page, encoding="utf-8") as file:
            text = file.read()
        self.assertFalse(re.findall(r"(?:src|href)\s*=|https?://|url\(|@import", text.split('<script type="application/json"')[0]))
        shown = self.shown(page)
        self.assertIn("2 volumes, 62 files", shown)
        self.assertIn("T-000001", self.texts(shown, "volumes"))
        self.assertRegex(shown, r'data-ready="\d+"')
        found = self.texts(self.shown(page, "search=LATE"), "found")
        self.assertEqual(found[0], "/s/late.txt")
        self.assertIn("1 file", found[-1])
        found = self.texts(self.shown(page, "search=script"), "found")
        self.assertEqual(found[0], "/s/f/" + evil.replace("/", "-"))

    def test_the_tree_at_each_commit(self) -> None:
        self.init()
        for index in range(12):
            write(os.path.join(self.source, f"f{index:02}"), b"%d" % index)
        self.add()
        rows = sorted((row["places"][0]["commit"], row["path"]) for row in self.rows())
        page = self.page()
        for commit in (0, rows[0][0], rows[5][0], rows[5][0] - 1, rows[-1][0]):
            shown = self.shown(page, f"volume=T-000001&commit={commit}")
            names = sorted(text for text in self.texts(shown, "one") if re.fullmatch("f[0-9]+", text))
            self.assertEqual(names, sorted(path.split("/")[-1] for at, path in rows if at <= commit))

    def test_a_log_that_is_damaged(self) -> None:
        """The addresses of the commits are those of the image then."""
        self.init()
        make_tree(self.source, 20, 1)
        self.add()
        self.do("close")
        before = self.ends(self.page())
        self.assertGreater(len(before), 20)
        log = os.path.join(self.archive, "closed", "T-000001.log")
        for data in (b"", b"1 266\nx\n", b"1 two 3 4\n", b"\xff\n"):
            with open(log, "wb") as file:
                file.write(data)
            self.assertEqual(self.ends(self.page()), before)

    def ends(self, page: str) -> List[int]:
        """What the page has of the commits of its volume."""
        with open(page, encoding="utf-8") as file:
            (found,) = re.findall(r'"ends":\[([0-9,]*)\]', file.read())
        return [int(number) for number in found.split(",") if number]

    def test_only_a_page_is_replaced(self) -> None:
        self.init()
        page = self.page()
        self.do("report", page)
        other = write(self.path("other.html"), b"<html>mine")
        self.do("report", other, status=1)
        with open(other, "rb") as file:
            self.assertEqual(file.read(), b"<html>mine")

    def test_a_hundred_thousand_files(self) -> None:
        self.init()
        write(os.path.join(self.source, "f"), b"1")
        self.add()
        fill_catalogue(os.path.join(self.archive, "catalogue.sqlite"), 100_000)
        page = self.page()
        took: List[int] = []
        # The least of three: a machine with much other work may let a browser stand still for seconds.
        while len(took) < 3 and not (took and min(took) < 3000):
            shown = self.shown(page, "volume=T-000005&search=name-99")
            self.assertIn("100,001 files", shown)
            (ready,) = re.findall(r'data-ready="(\d+)"', shown)
            took.append(int(ready))
        self.assertLess(min(took), 3000)


def fill_catalogue(path: str, files: int, a_volume: int = 4000, a_folder: int = 32) -> None:
    """Rows that were made for it: volumes from 2 on, with folders of some files each."""
    base = sqlite3.connect(path)
    base.execute("PRAGMA synchronous = OFF")
    base.execute("PRAGMA cache_size = -1000000")
    base.create_function("reverse", 1, backwards, deterministic=True)
    columns = [name for _, name, *_ in base.execute("PRAGMA table_info(volume)")]
    (row,) = base.execute("SELECT * FROM volume WHERE number = 1")
    known = dict(zip(columns, row))
    (first,) = base.execute("SELECT coalesce(max(id), 0) + 1 FROM folder").fetchone()
    for number in range(2, 2 + -(-files // a_volume)):
        values = {**known, "number": number, "label": f"T-{number:06}", "last_commit": a_volume + 10, "files": a_volume, "nodes": 4090}
        base.execute(f"INSERT INTO volume ({', '.join(columns)}) VALUES ({', '.join('?' * len(columns))})", [values[name] for name in columns])
    base.executemany(
        "INSERT INTO folder VALUES (?, ?)", ((first + index, f"/made/year-{index // 5000}/month-{index // 400 % 12}/folder-{index}") for index in range(-(-files // a_folder))),
    )
    # In SQL, where each row takes a microsecond or two. Names that are next to each other are of files far from each other.
    base.execute(
        """WITH RECURSIVE made (i) AS (SELECT 0 UNION ALL SELECT i + 1 FROM made WHERE i + 1 < :files)
        INSERT INTO file SELECT :first + i / :a_folder, (2 + i / :a_volume << 18) + 10 + i % :a_volume, 'name-' || (i * 7919 % 10000019) || '.bin',
        i % 100000, 1700000000000000 + i, randomblob(32), 1700000001000000 + i / :a_volume, NULL, NULL FROM made""",
        {"files": files, "first": first, "a_folder": a_folder, "a_volume": a_volume},
    )
    # Sorted, so that the pages of each table are filled one after another.
    for table, name in (("by_name", "name"), ("by_ending", "reverse(name)")):
        made = f"SELECT {name}, path, file.id, part_count FROM file JOIN folder ON folder.id = folder WHERE file.id >= ? ORDER BY 1, 2, 3"
        base.execute(f"INSERT INTO {table} {made}", (2 << 18,))
    base.execute("UPDATE archive SET next_volume = ?", (2 + -(-files // a_volume),))
    base.commit()
    base.close()


def backwards(text: str) -> str:
    return text[::-1]


def made_name(index: int) -> str:
    """The name of a row that was made."""
    return f"name-{index * 7919 % 10_000_019}.bin"
