"""What is deleted at its source: recorded, shown as the tree was at each moment, and never taken off a volume."""

from __future__ import annotations

import os
import shutil
import subprocess
import sys
import time
from typing import Dict, List, Set

from .support import PACKAGE, Digests, WithArchive, digests, environment, make_tree, words_of, write
from .test_chaos import Chaos

sys.path.insert(0, PACKAGE)

from udfburn.archive.config import read  # noqa: E402
from udfburn.archive.tell import Tell  # noqa: E402
from udfburn.archive.view import ArchiveView  # noqa: E402
from udfburn.mounting.shown_tree import ShownFolder  # noqa: E402

ODD = [b"new\nline", b"per%cent", b"back\\slash", b"\xff\xfe", b"- dash", b"=x", " blank ".encode(), "é".encode(), b"cr\rhere", b"%0A"]


class WithTree(WithArchive):
    def setUp(self) -> None:
        super().setUp()
        self.init()
        make_tree(self.source, 20, 1)
        write(os.path.join(self.source, "folder", "deep", "one"), b"1")
        write(os.path.join(self.source, "folder", "two"), b"2")

    def moment(self) -> str:
        """A moment between two runs."""
        time.sleep(0.01)
        found = time.time()
        time.sleep(0.01)
        return time.strftime("%Y-%m-%dT%H:%M:%S", time.gmtime(found)) + f".{int(found % 1 * 1e6):06}Z"

    def as_of(self, moment: str, archive: str = "") -> Digests:
        """What the archive had at a moment."""
        folder = self.path(f"back-{len(os.listdir(self.room))}")
        self.run_in(archive or self.archive, "get", "--as-of", moment, "/s", folder)
        return digests(os.path.join(folder, "s"))

    def listed(self) -> Set[str]:
        return {str(row["path"]) for row in self.rows()}

    def mounted(self, top: bytes, run: bytes = b"") -> Set[str]:
        """The files that a mount shows."""
        view = ArchiveView(read(self.archive), Tell(True, False))
        self.addCleanup(view.close)
        item = view.names()[top]
        assert isinstance(item, ShownFolder)
        if run:
            found = item.find(run)
            assert isinstance(found, ShownFolder)
            item = found
        paths: Set[str] = set()

        def walk(folder: ShownFolder, at: str) -> None:
            for name, below in folder.names().items():
                if isinstance(below, ShownFolder):
                    walk(below, f"{at}/{os.fsdecode(name)}")
                    # What is listed is found, too, and no folder is empty.
                    assert folder.find(name) is not None and below.names()
                else:
                    paths.add(f"{at}/{os.fsdecode(name)}")

        walk(item, "")
        return paths

    def events(self, done_lines: List[Dict[str, object]], kind: str) -> Set[str]:
        return {str(line["path"]) for line in done_lines if line["did"] == kind}


class Recorded(WithTree):
    def test_a_tree_as_it_was(self) -> None:
        self.add()
        first, before = self.moment(), digests(self.source)
        shutil.rmtree(os.path.join(self.source, "folder"))
        os.unlink(os.path.join(self.source, "d0", "e0", "file 3.bin"))
        write(os.path.join(self.source, "new"), b"new")
        # Without the option nothing is recorded.
        self.add()
        self.assertEqual(set(self.get_all()), set(before) | {b"new"})
        done = self.add("--deletions")
        gone = {"/s/folder/deep/one", "/s/folder/two", "/s/d0/e0/file 3.bin"}
        self.assertEqual((self.events(done.objects(), "gone"), done.last()["gone"]), (gone, 3))
        second, after = self.moment(), digests(self.source)
        self.assertEqual(self.get_all(), after)
        self.assertEqual(self.as_of(first), before)
        self.assertEqual(self.listed(), {f"/s/{os.fsdecode(name)}" for name in after})
        self.assertEqual([line["path"] for line in self.do("ls", "/s").objects() if line.get("kind") == "folder"], ["/s/d0"])
        self.assertEqual(self.mounted(b"latest"), self.listed())
        self.assertEqual(self.do("diff", self.source, "--at", "/s").last()["gone"], 0)
        self.assertIn("was deleted at its source", self.do("get", "/s/folder/two", self.path("none"), status=1).errors)
        kinds = [line.get("did", "version") for line in self.do("history", "/s/folder/two").objects() if "path" in line]
        self.assertEqual(kinds, ["gone", "version"])
        # Once.
        self.assertEqual(self.add("--deletions").last()["gone"], 0)
        # A file that is there again, with the same bytes and time, is not stored again.
        shutil.copytree(self.as_of_folder(first), os.path.join(self.source), dirs_exist_ok=True)
        done = self.add()
        self.assertEqual((self.events(done.objects(), "back"), done.last()["files"]), (gone, 0))
        self.assertEqual(self.get_all(), digests(self.source))
        self.assertEqual(self.as_of(second), after)
        self.assertEqual(self.as_of(first), before)
        kinds = [line.get("did", "version") for line in self.do("history", "/s/folder/two").objects() if "path" in line]
        self.assertEqual(kinds, ["back", "gone", "version"])
        # And may go again, or change.
        os.unlink(os.path.join(self.source, "folder", "two"))
        write(os.path.join(self.source, "folder", "deep", "one"), b"another")
        self.assertEqual(self.add("--deletions").last()["gone"], 1)
        self.assertEqual(self.get_all(), digests(self.source))
        self.require_found_on_volumes(first, before, second, after)

    def as_of_folder(self, moment: str) -> str:
        folder = self.path("again")
        self.do("get", "--as-of", moment, "/s", folder)
        return os.path.join(folder, "s")

    def require_found_on_volumes(self, first: str, before: Digests, second: str, after: Digests) -> None:
        """A catalogue that is made anew says the same, of open volumes and of closed ones."""
        now = self.get_all()
        for close in (False, True):
            if close:
                self.do("close")
                self.do("check", "--data")
            for name in os.listdir(self.archive):
                if name.startswith("catalogue"):
                    os.unlink(os.path.join(self.archive, name))
            self.do("rebuild")
            self.assertEqual((self.get_all(), self.as_of(first), self.as_of(second)), (now, before, after))
            self.require_agreed()
        # A damaged one too.
        with open(os.path.join(self.archive, "catalogue.sqlite"), "r+b") as file:
            file.seek(4096)
            file.write(bytes(8192))
        self.do("rebuild")
        self.assertEqual((self.get_all(), self.as_of(first), self.as_of(second)), (now, before, after))

    def test_runs_of_a_mount(self) -> None:
        self.add()
        before = {f"/s/{os.fsdecode(name)}" for name in digests(self.source)}
        shutil.rmtree(os.path.join(self.source, "folder"))
        self.add("--deletions")
        view = ArchiveView(read(self.archive), Tell(True, False))
        runs = sorted(view.runs())
        view.close()
        self.assertEqual(len(runs), 2)
        after = {path for path in before if not path.startswith("/s/folder/")}
        self.assertEqual([self.mounted(b"runs", run) for run in runs], [before, after])
        self.assertEqual(self.mounted(b"latest"), after)

    def test_odd_names(self) -> None:
        for name in ODD:
            with open(os.path.join(os.fsencode(self.source), name), "wb") as file:
                file.write(name)
        self.add()
        first, before = self.moment(), digests(self.source)
        for name in ODD:
            os.unlink(os.path.join(os.fsencode(self.source), name))
        self.assertEqual(self.add("--deletions").last()["gone"], len(ODD))
        self.assertEqual(self.get_all(), digests(self.source))
        for entry in os.listdir(self.archive):
            if entry.startswith("catalogue"):
                os.unlink(os.path.join(self.archive, entry))
        self.do("rebuild")
        self.assertEqual((self.get_all(), self.as_of(first)), (digests(self.source), before))


class NotRecorded(WithTree):
    """What is not at its source for another reason is not gone."""

    def setUp(self) -> None:
        super().setUp()
        self.add()
        self.before = self.listed()

    def require_nothing(self, *words: str, status: int) -> str:
        done = self.add("--deletions", *words, status=status)
        self.assertEqual(done.last()["gone"], 0)
        self.assertEqual(self.listed(), self.before)
        return done.errors

    def test_a_source_that_is_not_there(self) -> None:
        os.rename(self.source, self.path("away"))
        self.assertIn("No such file", self.require_nothing(status=1))
        # As a disk looks that is not mounted.
        os.mkdir(self.source)
        self.assertIn("has no file at all, so none of 22 files counts as deleted: is its disk mounted?", self.require_nothing(status=1))
        os.mkdir(os.path.join(self.source, "lost+found"))
        self.require_nothing(status=1)

    def test_what_is_left_out(self) -> None:
        self.require_nothing("--exclude", "folder/", status=0)
        self.require_nothing("--exclude", "file 3.bin", status=0)
        write(os.path.join(self.source, "folder", "CACHEDIR.TAG"), b"Signature: 8a477f597d28d172789f06886806bc55")
        self.require_nothing("--exclude-caches", status=0)
        os.unlink(os.path.join(self.source, "folder", "CACHEDIR.TAG"))
        # A link is no file, and may lead to it.
        os.rename(os.path.join(self.source, "folder"), self.path("elsewhere"))
        os.symlink(self.path("elsewhere"), os.path.join(self.source, "folder"))
        self.require_nothing("--skip-odd", status=0)

    def test_another_file_system(self) -> None:
        folder = os.path.join(self.source, "folder")
        self.mount_memory(folder, "4m")
        self.require_nothing("--one-file-system", status=0)

    def test_what_cannot_be_read(self) -> None:
        os.chmod(os.path.join(self.source, "folder"), 0)
        # Root reads all, as long as it has these capabilities.
        without = ["setpriv", "--inh-caps=-all", "--bounding-set=-dac_override,-dac_read_search"] if not os.geteuid() else []
        words = words_of("add", self.source, "--at", "/s", "--deletions", "--archive", self.archive)
        done = subprocess.run([*without, *words], env=environment(), check=False, capture_output=True, text=True)
        self.assertEqual(done.returncode, 1, done.stderr)
        self.assertIn("Permission denied", done.stderr)
        self.assertEqual(self.listed(), self.before)

    def test_other_paths(self) -> None:
        """Only what is below the path that is added is looked at."""
        os.unlink(os.path.join(self.source, "folder", "two"))
        done = self.do("add", os.path.join(self.source, "d0"), "--at", "/s/d0", "--deletions")
        self.assertEqual((done.last()["gone"], self.listed()), (0, self.before))

    def test_words(self) -> None:
        self.add("--deletions", "--delete-source", status=2)


class Failing(Chaos):
    def test_deletions(self) -> None:
        """At whatever call it is cut: no path is gone that is there, and the same command finishes."""
        self.add()
        os.unlink(os.path.join(self.source, "big"))
        shutil.rmtree(os.path.join(self.source, "more"))
        self.keep()
        left = digests(self.source)
        words = ("add", self.source, "--at", "/s", "--deletions")

        def check(_: str) -> None:
            self.assertLessEqual(set(left), set(self.get_all()))
            self.do(*words)
            self.assertEqual(self.get_all(), left)
            self.assertEqual(self.do(*words).last()["gone"], 0)
            self.do("rebuild")
            self.assertEqual(self.get_all(), left)
            self.require_agreed()

        self.trials(check, *words)
