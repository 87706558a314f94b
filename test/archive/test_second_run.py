"""A second run of `add`: what is left out, what is read again, and what would be stored."""

from __future__ import annotations

import os
import shutil
import subprocess
import sys
import time
from typing import Dict, List, Set
from unittest import mock

from .support import PACKAGE, WithArchive, digests, make_tree, write

sys.path.insert(0, PACKAGE)

from udfburn.archive import exclude  # noqa: E402
from udfburn.base.errors import UsageError  # noqa: E402

FILES = {
    "a.jpg": b"1", "a.tmp": b"2", "keep.tmp": b"3", "build/x": b"4", "src/build/y": b"5", "src/x.c": b"6", "src/x.o": b"7", "src/deep/z.o": b"8",
    "cache/CACHEDIR.TAG": exclude.SIGNATURE + b"\n# by a test", "cache/one": b"9", "cache/two/three": b"10", "other/CACHEDIR.TAG": b"no signature",
    "other/four": b"11", "ünï/\udcff.o": b"12", "name with blank .o": b"13", "#hash": b"14", "!bang": b"15", "[set].txt": b"16",
}


class Excludes(WithArchive):
    def setUp(self) -> None:
        super().setUp()
        for name, data in FILES.items():
            write(os.path.join(self.source, name), data)

    def stored(self, *words: str) -> Set[str]:
        """What a new archive has after `add` with these words."""
        archive = self.path(f"archive-{len(os.listdir(self.room))}")
        self.init(archive=archive)
        self.run_in(archive, "add", self.source, "--at", "/s", *words)
        return {str(row["path"])[3:] for row in self.rows(archive)}

    def left(self, *words: str) -> Set[str]:
        shown = {name.encode(errors="surrogateescape").decode(errors="backslashreplace") for name in FILES}
        return shown - self.stored(*words)

    def as_git_has_it(self, lines: List[str]) -> Set[str]:
        """What git leaves out of the same tree by the same lines."""
        folder = self.path("git")
        subprocess.run(["cp", "-a", self.source, folder], check=True)
        subprocess.run(["git", "init", "-q", folder], check=True)
        write(os.path.join(folder, ".git", "info", "exclude"), "\n".join(lines).encode() + b"\n")
        told = subprocess.run(
            ["git", "-C", folder, "ls-files", "-z", "--others", "--ignored", "--exclude-standard"], check=True, capture_output=True,
        ).stdout
        subprocess.run(["rm", "-rf", folder], check=True)
        return {name.decode(errors="backslashreplace") for name in told.split(b"\0") if name}

    def test_patterns_are_those_of_git(self) -> None:
        for lines in (
            ["*.o"], ["*.tmp", "!keep.tmp"], ["build/"], ["/build"], ["src/build"], ["src/*.o"], ["src/**/z.o"], ["**/build/y"], ["*", "!*/", "!*.jpg"],
            ["\\#hash"], ["\\!bang"], ["\\[set\\].txt"], ["[[]*"], ["src"], ["# nothing"], ["name with blank .o"], ["x.[oc]"], ["?.jpg"],
        ):
            words = [word for line in lines for word in ("--exclude", line)]
            self.assertEqual(self.left(*words), self.as_git_has_it(lines), lines)

    def test_lines_of_a_file(self) -> None:
        write(self.path("lines"), b"*.o\n\n# a comment\nbuild/\n")
        self.assertEqual(self.left("--exclude-from", self.path("lines"), "--exclude", "!src/x.o"), self.as_git_has_it(["*.o", "build/", "!src/x.o"]))
        for words in (["--exclude-from", self.path("none")], ["--exclude", "!"]):
            self.init(archive=self.path("refused")) if not os.path.exists(self.path("refused")) else None
            self.assertNotEqual(self.run_in(self.path("refused"), "add", self.source, *words, status=None).status, 0)
        self.assertEqual(self.rows(self.path("refused")), [])

    def test_caches(self) -> None:
        self.assertEqual(self.left("--exclude-caches"), {"cache/CACHEDIR.TAG", "cache/one", "cache/two/three"})

    def test_what_is_left_out_is_counted(self) -> None:
        self.init()
        last = self.add("--exclude", "*.o", "--exclude", "src/", "--exclude-caches").last()
        # Three files, `src` with what is in it, and the cache.
        self.assertEqual((last["excluded"], last["empty"]), (4, 0))

    def test_without_the_library(self) -> None:
        with mock.patch.object(exclude, "import_module", side_effect=ImportError), self.assertRaisesRegex(UsageError, "python3-pathspec"):
            exclude.compiled(["*.o"])

    def test_another_file_system(self) -> None:
        mounted = os.path.join(self.source, "mounted")
        self.mount_memory(mounted, "4m")
        write(os.path.join(mounted, "far"), b"1")
        self.assertIn("mounted/far", self.stored())
        self.assertEqual(self.stored("--one-file-system"), self.stored() - {"mounted/far"})


def calls_of(archive: str, source: str, *words: str) -> Dict[str, int]:
    """How often a run opens each file of the source, by what strace sees."""
    log = os.path.join(os.path.dirname(archive), "calls")
    command = [sys.executable, "-m", "udfburn.archive", "add", source, "--at", "/s", "--archive", archive, "--quiet", *words]
    environment = {**os.environ, "PYTHONPATH": PACKAGE, "PYTHONUTF8": "1"}
    subprocess.run(["strace", "-f", "-qq", "-e", "trace=openat", "-o", log, *command], check=True, env=environment)
    found: Dict[str, int] = {}
    with open(log, errors="replace") as file:
        for line in file:
            if "O_NOATIME" in line and '"' in line and "= -1" not in line:
                name = line.split('"')[1]
                found[name] = found.get(name, 0) + 1
    return found


class TrustedTimes(WithArchive):
    def setUp(self) -> None:
        super().setUp()
        self.init()
        make_tree(self.source, 60, 3, most=3000)
        write(os.path.join(self.source, "large.bin"), bytes(2_500_000))
        self.names = sorted(os.path.basename(os.fsdecode(name)) for name in digests(self.source))

    def test_files_are_not_read_again(self) -> None:
        """The first run with the option reads all, and the next one nothing but what changed."""
        self.assertEqual(sorted(calls_of(self.archive, self.source, "--trust-times")), self.names)
        self.assertEqual(calls_of(self.archive, self.source, "--trust-times"), {})
        self.assertEqual(sorted(calls_of(self.archive, self.source)), self.names)
        changed = os.path.join(self.source, "d0", "e0", "file 3.bin")
        write(changed, b"other bytes")
        os.chmod(os.path.join(self.source, "d0", "e0", "file 4.bin"), 0o640)
        os.link(os.path.join(self.source, "d0", "e0", "file 5.bin"), os.path.join(self.source, "second name"))
        os.rename(os.path.join(self.source, "d0", "e0", "file 6.bin"), os.path.join(self.source, "moved"))
        # A hard link's times say nothing, and a chmod or a rename changes the time of the inode.
        self.assertEqual(sorted(calls_of(self.archive, self.source, "--trust-times")), ["file 3.bin", "file 4.bin", "file 5.bin", "moved", "second name"])
        self.assertEqual(self.get_all(), digests(self.source) | {b"d0/e0/file 6.bin": self.get_all()[b"d0/e0/file 6.bin"]})

    def test_times_that_are_set_back(self) -> None:
        """What writes and then sets the time of modification back is seen by the time of the inode."""
        self.add("--trust-times")
        path = os.path.join(self.source, "d0", "e0", "file 3.bin")
        status = os.stat(path)
        with open(path, "r+b") as file:
            file.write(bytes(255 - byte for byte in file.read(1)) or b"1")
            file.seek(0)
            file.write(b"\xff\xee")
        os.truncate(path, status.st_size)
        os.utime(path, ns=(status.st_atime_ns, status.st_mtime_ns))
        self.assertEqual(self.add("--trust-times").last()["files"], 1)
        self.assertEqual(self.get_all(), digests(self.source))

    def test_what_the_archive_lacks_is_stored(self) -> None:
        """A file that was read is not one that is stored: the catalogue says that."""
        self.add("--trust-times")
        self.do("close")
        image = os.path.join(self.archive, "closed", "T-000001.img")
        os.chmod(image, 0o600)
        with open(image, "r+b") as file:
            file.seek(400 * 2048)
            file.write(b"\xff" * 4096)
        self.do("check", "--data", "T-000001", status=1)
        self.do("retire", "T-000001")
        self.assertEqual(self.add("--trust-times").last()["files"], len(self.names))

    def test_a_base_that_is_lost_or_damaged(self) -> None:
        self.add("--trust-times")
        base = os.path.join(self.archive, "seen.sqlite")
        for data in (None, os.urandom(9000), b""):
            os.unlink(base)
            if data is not None:
                write(base, data)
            for end in ("-wal", "-shm"):
                if os.path.exists(base + end):
                    os.unlink(base + end)
            last = self.add("--trust-times").last()
            self.assertEqual((last["files"], last["same"]), (0, len(self.names)))

    def test_a_link_in_the_place_of_the_base(self) -> None:
        """It is not followed."""
        target = write(self.path("private"), b"")
        os.symlink(target, os.path.join(self.archive, "seen.sqlite"))
        self.add("--trust-times")
        self.assertEqual(self.add("--trust-times").last()["same"], len(self.names))
        self.assertEqual(os.path.getsize(target), 0)

    def test_sources_are_read_before_they_go(self) -> None:
        """`--trust-times` lets no source go unread."""
        self.add("--trust-times")
        path = os.path.join(self.source, "d0", "e0", "file 3.bin")
        read = calls_of(self.archive, self.source, "--trust-times", "--delete-source")
        self.assertEqual(sorted(read), self.names)
        self.assertFalse(os.path.exists(path))


class Previews(WithArchive):
    def kinds(self, command: str, *words: str, status: int) -> Dict[str, Set[str]]:
        found: Dict[str, Set[str]] = {}
        for line in self.do(command, self.source, "--at", "/s", *words, status=status).objects()[:-1]:
            found.setdefault(line["did"], set()).add(line.get("path") or "")
        return found

    def test_differences(self) -> None:
        self.init()
        make_tree(self.source, 20, 4)
        write(os.path.join(self.source, "large.bin"), bytes(2_500_000))
        before = self.tree()
        self.assertEqual(len(self.kinds("add", "--dry-run", status=0)["new"]), 21)
        self.assertEqual(self.tree(), before)
        self.add()
        self.assertEqual(self.kinds("diff", status=0), {})
        one, two, three = (os.path.join(self.source, "d0", "e0", f"file {index}.bin") for index in (1, 2, 3))
        write(one, b"other")
        os.unlink(two)
        os.utime(three, (1, 1))
        write(os.path.join(self.source, "fresh"), b"1")
        write(os.path.join(self.source, "fresh.tmp"), b"1")
        os.symlink("fresh", os.path.join(self.source, "link"))
        wanted = {"new": {"/s/fresh"}, "changed": {"/s/d0/e0/file 1.bin", "/s/d0/e0/file 3.bin"}}
        # The bytes of the last one are there, so it would get a line.
        stored = {**wanted, "changed": {"/s/d0/e0/file 1.bin"}, "same as": {"/s/d0/e0/file 3.bin"}}
        words = ["--exclude", "*.tmp", "--exclude", "link"]
        before = self.tree()
        self.assertEqual(self.kinds("add", "--dry-run", *words, status=0), stored)
        self.assertEqual(self.kinds("diff", *words, status=1), {**wanted, "gone": {"/s/d0/e0/file 2.bin"}})
        # What is left out at the source is not gone.
        self.assertEqual(self.kinds("diff", *words, "--exclude", "d0/", status=1), {"new": {"/s/fresh"}})
        self.assertEqual(self.tree(), before)
        self.add("--exclude", "*.tmp", "--skip-odd")
        self.assertEqual(self.kinds("diff", *words, status=1), {"gone": {"/s/d0/e0/file 2.bin"}})

    def tree(self) -> Dict[str, bytes]:
        """All files of the archive but the catalogue's, which opening it may write."""
        found = {os.fsdecode(name): value[0].encode() for name, value in digests(self.archive).items()}
        return {name: value for name, value in found.items() if "sqlite" not in name and not name.startswith("locks/")}

    def test_what_cannot_be_read_is_not_gone(self) -> None:
        self.init()
        make_tree(self.source, 20, 4)
        self.add()
        os.unlink(os.path.join(self.source, "d0", "e0", "file 1.bin"))
        os.rename(os.path.join(self.source, "d0"), self.path("away"))
        done = self.do("diff", self.path("missing"), "--at", "/s", status=1)
        self.assertEqual([line["did"] for line in done.objects()[:-1]], ["failed"])

    def test_a_dry_run_deletes_nothing(self) -> None:
        self.init()
        write(os.path.join(self.source, "one"), b"1")
        self.add("--dry-run", "--delete-source", status=2)
        self.assertTrue(os.path.exists(os.path.join(self.source, "one")))


class ThereAgain(WithArchive):
    """A file that was changed, and is again as it was before, with the time that it had."""

    NAMES = ("small", "large", "empty", *(f"bundled/{index}" for index in range(20)))

    def make(self, words: bytes) -> None:
        for name in self.NAMES:
            data = (words + name.encode()) * (1 + 200_000 * (name == "large"))
            write(os.path.join(self.source, name), b"" if (name, words) == ("empty", b"first") else data)

    def test_it_is_the_newest(self) -> None:
        self.init("--delete", "acknowledged")
        kept = [self.path(name) for name in ("first", "second")]
        found = []
        for folder in kept:
            self.make(os.path.basename(folder).encode())
            subprocess.run(["cp", "-a", self.source, folder], check=True)
        for turn in range(4):
            shutil.rmtree(self.source)
            subprocess.run(["cp", "-a", kept[turn % 2], self.source], check=True)
            last = self.add("--bundle").last()
            self.assertEqual((last["files"], last["same_as"]), (len(self.NAMES), 0) if turn < 2 else (turn == 2, len(self.NAMES) - (turn == 2)))
            self.assertEqual(self.get_all(), digests(self.source))
            self.assertEqual(self.do("diff", self.source, "--at", "/s").last()["same"], len(self.NAMES))
            self.assertEqual(self.add("--bundle").last()["same"], len(self.NAMES))
            found.append((time.time(), digests(self.source)))
        os.unlink(os.path.join(self.archive, "catalogue.sqlite"))
        self.do("rebuild")
        for moment, before in found:
            folder = self.path(f"back-{moment}")
            self.do("get", "--as-of", time.strftime("%Y-%m-%dT%H:%M:%S", time.gmtime(moment)) + f".{int(moment % 1 * 1e6):06}Z", "/s", folder)
            self.assertEqual(digests(os.path.join(folder, "s")), before)
        self.assertEqual(self.add("--delete-source").last()["deleted"], len(self.NAMES))
        self.require_agreed()
