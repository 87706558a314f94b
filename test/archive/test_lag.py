"""How far the copies of open volumes are behind, by what the last run saw: in `status`, as a warning, and as metrics."""

from __future__ import annotations

import os
import re
import shutil
import sqlite3
from typing import Any, Dict, List

from .support import COMMANDS, PATIENCE, change, environment, write
from .test_open_copies import WithOpen

DAY = 86_400_000_000


class Lags(WithOpen):
    def lags(self, status: int = 0, number: int = 0) -> Dict[str, Any]:
        """What `status` says of each copy of a volume, by its remote."""
        volumes = sorted((line for line in self.do("status", status=status).objects() if line["did"] == "volume"), key=lambda line: str(line["volume"]))
        return {lag["remote"]: lag for lag in volumes[number]["open_copies"]}

    def shown(self) -> str:
        """What it prints for people."""
        return COMMANDS.run(["status", "--archive", self.archive], environment(), self.room, PATIENCE).stdout.decode()

    def age(self, days: int) -> None:
        """Has all that was added and seen be longer ago."""
        with sqlite3.connect(os.path.join(self.archive, "catalogue.sqlite")) as base:
            for table, column in (("file", "added"), ("open_copy", "seen")):
                base.execute(f"UPDATE {table} SET {column} = {column} - ?", (days * DAY,))
        base.close()

    def warned(self, *words: str) -> List[str]:
        done = self.do("status", "--check", *words, status=None)
        found = [line["message"] for line in done.objects() if line["did"] == "failed"]
        self.assertEqual(done.status, 1 if found else 0)
        return found

    def require_all(self) -> None:
        """Nothing is lacked anywhere."""
        self.assertEqual({remote: (lag["commits"], lag["bytes"], lag["since"]) for remote, lag in self.lags().items()}, {folder: (0, 0, None) for folder in self.folders})

    def without(self, index: int) -> str:
        """Takes the disk of a copy away."""
        os.rename(self.folders[index], self.folders[index] + " away")
        return self.folders[index]

    def back(self, index: int) -> None:
        os.rename(self.folders[index] + " away", self.folders[index])

    def test_what_has_all(self) -> None:
        self.require_all()
        self.assertIn(f", copy on {self.folders[0]} has all, copy on {self.folders[1]} has all", self.shown())
        # Nothing new makes no copy old.
        self.age(500)
        self.add()
        self.require_all()
        self.assertEqual(self.warned("--stale", "1h"), [])

    def test_a_disk_that_is_away(self) -> None:
        """It lacks what was added since, and is warned of once that is too long ago."""
        away, length = self.without(1), os.path.getsize(self.image())
        self.more()
        self.add(status=1)
        lag = self.lags()[away]
        self.assertEqual(lag["bytes"], os.path.getsize(self.image()) - length)
        self.assertGreater(lag["commits"], 0)
        self.assertIsNone(self.lags()[self.folders[0]]["since"])
        self.assertEqual(lag["since"], max(row["added"] for row in self.rows()))
        self.assertRegex(self.shown(), re.escape(f"copy on {away} lacks ") + r"[0-9]+ commits, [0-9.]+ KiB, since 20[0-9-]{8}\n")
        self.assertEqual(self.warned("--stale", "1h"), [])
        self.age(12)
        self.more("again")
        self.add(status=1)
        first = min(row["added"] for row in self.rows() if "/more/" in row["path"])
        self.assertEqual(self.lags()[away]["since"], first)
        line = f"T-000001: has what was not copied to {away} for 12 days: 'copy'"
        self.assertEqual(self.warned("--stale", "10d"), [line])
        self.assertEqual(self.warned("--stale", "13d"), [])
        self.assertEqual(self.warned(), [])
        # `check` names each copy once.
        self.back(1)
        done = self.do("check", "--remotes", "--stale", "10d", status=1)
        self.assertEqual(len(done.last()["failures"]), 1, done.last())
        self.assertIn(f"the copy on {away} lacks the last", done.last()["failures"][0])
        self.assertEqual(self.do("check", "--stale", "10d", status=1).last()["failures"], [line])
        self.do("copy")
        self.require_all()
        self.assertEqual(self.warned("--stale", "10d"), [])

    def test_what_no_run_has_seen(self) -> None:
        """A remote that is new, and a catalogue that was made anew, know no copy until a run looks."""
        third = self.path("three")
        os.mkdir(third)
        self.do("remote", "add", third, "--same-device")
        self.assertIn(f"no copy on {third} is known", self.shown())
        self.age(3)
        self.assertEqual(self.warned("--stale", "2d"), [f"T-000001: has what was not copied to {third} for 3 days: 'copy'"])
        self.do("copy")
        self.folders.append(third)
        self.require_all()
        self.do("remote", "remove", third)
        self.folders.pop()
        self.require_all()
        self.do("remote", "add", third)
        self.assertIsNone(self.lags()[third]["seen"])
        self.do("remote", "remove", third)
        for command in ("copy", "check"):
            for name in os.listdir(self.archive):
                if name.startswith("catalogue"):
                    os.unlink(os.path.join(self.archive, name))
            self.do("rebuild")
            self.assertEqual({lag["seen"] for lag in self.lags().values()}, {None})
            self.do(command, *(["--remotes"] if command == "check" else []))
            self.require_all()

    def test_copies_that_are_less_than_they_were(self) -> None:
        """`check` sees what is left of them."""
        older = shutil.copy(self.copy(), self.path("older"))
        self.more()
        self.add()
        commits = {volume["volume"]: volume["last_commit"] for volume in self.volumes()}["T-000001"]
        shutil.copy(older, self.copy())
        self.do("check", "--remotes", status=1)
        lag = self.lags()[self.folders[0]]
        self.assertEqual(lag["bytes"], os.path.getsize(self.image()) - os.path.getsize(older))
        self.assertTrue(0 < lag["commits"] < commits)
        os.unlink(self.copy())
        self.do("check", "--remotes", status=1)
        self.assertIsNone(self.lags()[self.folders[0]]["seen"])
        self.do("copy")
        self.require_all()
        # Nor is one known that is no beginning of the image.
        change(self.copy(1), 600_000)
        self.do("check", "--remotes", status=1)
        self.assertIsNone(self.lags()[self.folders[1]]["seen"])
        self.do("repair", "T-000001")
        self.require_all()

    def test_an_image_that_came_back_with_less(self) -> None:
        """What a copy had of the lost image says nothing of one that has other bytes in the place of it."""
        self.more()
        self.without(0)
        self.add(status=1)
        self.without(1)
        self.back(0)
        os.unlink(self.image())
        self.do("repair", "T-000001", status=1)
        self.require_lag(self.folders[1])
        self.more("again")
        self.add(status=1)
        self.require_lag(self.folders[1])
        self.back(1)
        self.assertIn("differs from the image", self.add(status=1).errors)
        self.require_lag(self.folders[1])
        self.do("repair", "T-000001")
        self.require_all()
        # So it is where an older image is put back, and the catalogue made of it.
        older = shutil.copy(self.image(), self.path("older"))
        write(os.path.join(self.source, "newest"), b"newest")
        self.add()
        shutil.copy(older, self.image())
        for name in [name for name in os.listdir(os.path.dirname(self.image())) if ".ledger" in name]:
            os.unlink(os.path.join(os.path.dirname(self.image()), name))
        self.do("rebuild")
        for folder in self.folders:
            self.require_lag(folder)

    def require_lag(self, folder: str) -> None:
        self.assertIsNone(self.lags()[folder]["seen"], folder)

    def test_closed(self) -> None:
        self.do("close")
        (volume,) = self.volumes()
        self.assertEqual((volume["open_copies"], len(volume["copies"])), ([], 2))
        with sqlite3.connect(os.path.join(self.archive, "catalogue.sqlite")) as base:
            self.assertEqual(base.execute("SELECT count(*) FROM open_copy").fetchone(), (0,))
        base.close()

    def test_rows_that_are_none(self) -> None:
        """A catalogue that has one is damaged, and made anew."""
        for column, value in (("last_commit", "none"), ("seen", 1 << 62)):
            with sqlite3.connect(os.path.join(self.archive, "catalogue.sqlite")) as base:
                base.execute(f"UPDATE open_copy SET {column} = ?", (value,))
            base.close()
            self.do("rebuild")
            self.assertEqual({lag["seen"] for lag in self.lags().values()}, {None})
            self.do("copy")
            self.require_all()

    def test_metrics(self) -> None:
        page = self.path("archive.prom")
        away, length = self.without(1), os.path.getsize(self.image())
        self.more()
        self.add(status=1)
        self.age(2)
        self.do("status", "--prometheus", page, "--stale", "1d")
        with open(page, encoding="utf-8") as file:
            found = dict(line.rsplit(" ", 1) for line in file.read().splitlines() if not line.startswith("#"))
        name = "udfburn_archive_open_copy_lacking"
        self.assertEqual(found[f'{name}_bytes{{archive="T",remote="{self.folders[0]}"}}'], "0")
        self.assertEqual(float(found[f'{name}_bytes{{archive="T",remote="{away}"}}']), os.path.getsize(self.image()) - length)
        since = f'{name}_since_timestamp_seconds{{archive="T",remote="%s"}}'
        self.assertAlmostEqual(float(found[since % away]), self.lags()[away]["since"] / 1e6, 3)
        self.assertNotIn(since % self.folders[0], found)
        self.assertEqual(found['udfburn_archive_attention{archive="T",kind="copy_behind"}'], "1")
