"""Names that UDF cannot spell, and what a volume does not keep."""

from __future__ import annotations

import json
import os
import random
import subprocess
import unittest
from typing import Dict, List

from udfburn.base import escape
from udfburn.trees import fetch
from udfburn import protocol as p

from .programs import WithPrograms
from .with_files import Local

NAMES = {
    "\U0001F600.jpg": "␛F0␛9F␛98␛80.jpg",
    "caf\udce9.txt": "caf␛E9.txt",
    "a␛b": "a␛E2␛90␛9Bb",
    "␛F0␛9F␛98␛80.jpg": "␛E2␛90␛9BF0␛E2␛90␛9B9F␛E2␛90␛9B98␛E2␛90␛9B80.jpg",
    "\ufeffmark": "␛EF␛BB␛BFmark",
    "a\U0001F600\udcff": "a␛F0␛9F␛98␛80␛FF",
    "plain": "plain",
    "é 深い %41": "é 深い %41",
}
"""Local names and their spellings, by README.md."""


class Spelling(unittest.TestCase):
    def test_by_the_document(self) -> None:
        for name, spelling in NAMES.items():
            self.assertEqual(escape.encode(name), spelling)
            self.assertEqual(escape.decode(spelling), name)
            self.assertIsNone(p.name_fault(spelling))

    def test_any_bytes(self) -> None:
        """No two names have one spelling, and each comes back, whatever its bytes are."""
        chance = random.Random(5)
        pieces = [b"a", b"\xff", b"\xc3", b"\xa9", "é".encode(), "␛".encode(), "\U0001F600".encode(), b"\xf0\x9f", b"41", b"E9", "\ufffe".encode(), b"\xed\xa0\x80"]
        seen: Dict[str, str] = {}
        for _ in range(20_000):
            name = os.fsdecode(b"".join(chance.choice(pieces) for _ in range(chance.randrange(1, 7))))
            spelling = escape.encode(name)
            self.assertEqual(escape.decode(spelling), name)
            self.assertTrue(all(map(p.has_spelling, spelling)))
            self.assertEqual(seen.setdefault(spelling, name), name)

    def test_what_is_no_spelling_is_a_name(self) -> None:
        """So no name of a volume leads to another folder."""
        for name in ("␛2F", "␛2E␛2E", "␛00", "␛41", "␛", "a␛", "␛e9", "␛F", "a␛zz", "␛E2␛90", "␛C3␛A9"):
            expected = os.fsdecode(b"\xe2\x90") if name == "␛E2␛90" else name
            self.assertEqual(escape.decode(name), expected, name)


class Escaped(Local):
    def make(self) -> List[bytes]:
        names = [os.fsencode(name) for name in NAMES]
        for name in names:
            for path in (name, b"d" + name + b"/" + name):
                local = os.path.join(os.fsencode(self.folder), path)
                os.makedirs(os.path.dirname(local), exist_ok=True)
                with open(local, "wb") as file:
                    file.write(name)
        return names

    def test_stored_and_undone(self) -> None:
        self.make()
        told = self.refused()
        self.assertEqual(told.count("(--escape stores it under an escaped name, --skip-odd leaves it out)"), 8, told)
        self.assertEqual(self.put(escape=True).files, 16)
        self.assertEqual({path[-1] for path in self.volume.nodes if len(path) == 2 and not path[-1].startswith("d")}, set(NAMES.values()))
        back = os.path.join(self.room, "back")
        self.assertEqual(fetch.get_tree(self.client(), ("x",), back), 16)
        self.assertEqual(subprocess.run(["diff", "-r", self.folder, back], check=False).returncode, 0)
        result = fetch.verify_tree(self.client(), self.folder, ("x",), escape=True)
        self.assertEqual((result.differences, result.extra, result.files), ([], [], 16))
        self.assertEqual(self.put(escape=True, delete_source=True).deleted, 16)

    def test_left_out_and_named(self) -> None:
        """Without --escape, a name that can be spelled is stored all the same, also one with the character itself."""
        self.make()
        summary = self.put(skip_odd=True)
        self.assertEqual(len(summary.skipped), 8)
        self.assertTrue(all("U+" in line or "not UTF-8" in line for line in summary.skipped), summary.skipped)
        self.assertEqual(sorted(path[-1] for path in self.volume.files() if len(path) == 2), sorted(["a␛E2␛90␛9Bb", NAMES["␛F0␛9F␛98␛80.jpg"], "plain", "é 深い %41"]))

    def test_names_that_get_too_long(self) -> None:
        self.write("\U0001F600" * 20)
        told = self.refused(escape=True)
        self.assertRegex(told, "more than 255 bytes as it is encoded on the medium .--skip-odd leaves it out")
        self.assertEqual(len(self.put(escape=True, skip_odd=True).skipped), 1)


class ByCommand(WithPrograms):
    def test_over_the_programs(self) -> None:
        """Also where the name is that of the word itself."""
        where = ["--image", self.image]
        self.write("\U0001F600/\udcff", b"hello")
        local = os.path.join(self.room, "\U0001F600")
        told = self.run_command("put", "-r", local, "/d/", "-p", where=where, status=2)
        self.assertIn("its name has U+1F600, which compressed Unicode cannot encode (--escape stores it under an escaped name)", told)
        self.run_command("put", "-r", "--escape", local, "/d/", "-p", where=where)
        self.assertEqual(self.run_command("ls", "-R", "/d", where=where), "/d:\nd ␛F0␛9F␛98␛80\n/d/␛F0␛9F␛98␛80:\nf ␛FF\n")
        back = os.path.join(self.room, "back")
        self.run_command("get", "-r", "/d", back, where=where)
        self.assertEqual(os.listdir(os.fsencode(back)), ["\U0001F600".encode()])
        with open(os.path.join(os.fsencode(back), "\U0001F600".encode(), b"\xff"), "rb") as file:
            self.assertEqual(file.read(), b"hello")
        one = os.path.join(self.room, "one")
        os.mkdir(one)
        self.run_command("get", "/d/␛F0␛9F␛98␛80/␛FF", one, where=where)
        self.assertEqual(os.listdir(os.fsencode(one)), [b"\xff"])
        self.assertIn("all are there", self.run_command("verify", "--escape", "--exact", local, "/d/␛F0␛9F␛98␛80", where=where))


class NotKept(WithPrograms):
    def put(self, *words: str) -> "tuple[str, Dict[str, object]]":
        """What a person is told about what is not kept, and what a program is."""
        folder = os.path.join(self.room, "source")
        told = self.run_command("put", "-r", folder, f"/{len(words)}p", *words, where=["--image", self.image])
        lines = [line.split("not kept: ", 1)[1] for line in told.splitlines() if "not kept" in line]
        self.assertEqual(len(lines), 1, told)
        output = self.run_command("put", "-r", "--dry-run", "--json", folder, f"/{len(words)}j", *words, where=["--image", self.image])
        objects = [json.loads(line) for line in output.splitlines() if '"not kept"' in line]
        self.assertEqual(len(objects), 1)
        objects[0].pop("did")
        return lines[0], objects[0]

    def test_in_one_line(self) -> None:
        mask = os.umask(0o022)
        self.addCleanup(os.umask, mask)
        self.write("source/plain", b"x")
        self.assertEqual(self.put(), ("the times of 1 folder", {"folder_times": 1}))
        os.chmod(self.write("source/script", b"x"), 0o755)
        os.chmod(self.write("source/secret", b"x"), 0o600)
        os.link(self.write("source/one", b"x"), os.path.join(self.room, "source", "two"))
        os.utime(self.write("source/old", b"x"), (-5, -5))
        os.utime(self.write("source/late", b"x"), (5_000_000_000, 5_000_000_000))
        os.makedirs(os.path.join(self.room, "source", "d"))
        os.chmod(os.path.join(self.room, "source", "d"), 0o700)
        line, counts = self.put("--moment", "mtime")
        wanted = {"modes": 3, "hard_links": 2, "moments": 2, "folder_times": 2}
        self.assertEqual(counts, wanted)
        self.assertEqual(line, "the modes of 3 files or folders, the hard links of 2 files (each name is a file of its own),"
                               " 2 moments outside 1970 to 2099 (the nearest one is stored), the times of 2 folders")
        if os.geteuid() == 0:
            os.chown(os.path.join(self.room, "source", "plain"), 12345, 12345)
            self.assertEqual(self.put("--skip-odd", "-p")[1], {**wanted, "owners": 1})

    def test_nothing_is_said_of_a_plain_file(self) -> None:
        local = self.write("plain", b"x")
        self.assertNotIn("not kept", self.run_command("put", local, "/a", where=["--image", self.image]))
        os.utime(local, (7, 7))
        told = self.run_command("put", local, "/a", where=["--image", self.image])
        self.assertIn("not kept: the new moments of 1 file with the same bytes (--rewrite stores them)", told)
        self.assertIn("1 were there", told)
        self.run_command("put", "--rewrite", local, "/a", where=["--image", self.image])
        self.assertEqual(self.on_image().stat("/a").moment, 7_000_000)


class Rewritten(WithPrograms):
    def test_only_what_changed(self) -> None:
        """Also where neither the size nor the time of a file shows its change."""
        folder, where = os.path.join(self.room, "source"), ["--image", self.image]
        for index in range(20):
            os.utime(self.write(f"source/{index}", b"%04d" % index), (1_000_000_000, 1_000_000_000))
        self.run_command("put", "-r", folder, "/x", where=where)
        commits = self.commits()
        self.assertIn("stored 0 files, 0 B, 20 were there", self.run_command("put", "-r", folder, "/x", where=where))
        os.utime(self.write("source/7", b"chan"), (1_000_000_000, 1_000_000_000))
        self.assertIn("stored 1 file, 4 B, 19 were there", self.run_command("put", "-r", folder, "/x", where=where))
        self.assertEqual(self.commits(), commits + 1)
        self.assertEqual(self.on_image().get("/x/7"), b"chan")
        self.assertIn("stored 1 file, 4 B", self.run_command("put", os.path.join(folder, "7"), "/y", where=where))
        self.assertIn("1 were there", self.run_command("put", os.path.join(folder, "7"), "/y", where=where))
        self.assertIn("stored 20 files", self.run_command("put", "-r", "--rewrite", folder, "/x", where=where))
        self.assertEqual(self.commits(), commits + 22)
        self.run_command("put", "-r", "--rewrite", "--skip-same", folder, "/x", where=where, status=2)


if __name__ == "__main__":
    unittest.main()
