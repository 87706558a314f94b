"""Bundles: the small files of a folder in one tar, each listed, given back, compared and known by itself."""

from __future__ import annotations

import os
import random
import shutil
import subprocess
import sys
import time
import unittest
from contextlib import closing, redirect_stderr, redirect_stdout
from datetime import datetime, timezone
from io import StringIO
from typing import Any, Dict, Iterator, List, Set
from unittest import mock

from .servers import Server, driver, programs
from .support import PACKAGE, STOPS, UDFBURN, change_in, digests, environment, kill, state_of, wait_until, write
from .test_deletions import ODD, WithTree
from .test_same import WithMoved

sys.path.insert(0, PACKAGE)

from udfburn.archive.bundle import bundled, bundles_on, list_of, read_list  # noqa: E402
from udfburn.archive.cli import main  # noqa: E402
from udfburn.archive.contents import Contents, File  # noqa: E402
from udfburn.archive.errors import VolumeDiffers  # noqa: E402
from udfburn.local.sources import Source, read_parts  # noqa: E402
from udfburn.protocol.units import Commit, Moment, Size  # noqa: E402

ONE_BY_ONE = """
from udfburn.archive import fill
fill.PLANNED_FILES = 1
"""


class WithBundles(WithMoved):
    def setUp(self) -> None:
        super().setUp()
        self.chance = random.Random(7)

    def make_small(self, count: int, size: int = 4096, name: str = "small") -> None:
        """So many files of so many bytes in a folder."""
        for index in range(count):
            write(os.path.join(self.source, name, f"{index:05}.txt"), self.chance.randbytes(size))
            os.utime(os.path.join(self.source, name, f"{index:05}.txt"), ns=(0, (1_700_000_000_123_456 + index) * 1000))

    def bundle(self, *words: str, status: int = 0) -> Any:
        return self.add("--bundle", *words, status=status)

    def places(self, path: str) -> List[Dict[str, Any]]:
        return [line for line in self.do("where", path).objects() if "commit" in line]

    def bytes_of(self, path: str) -> bytes:
        with open(os.path.join(self.source, *path.split("/")), "rb") as file:
            return file.read()

    def tars(self, image: str) -> List[str]:
        """The stored paths of the bundles of an image."""
        with closing(Contents(image)) as contents:
            return ["/" + "/".join(file.whole) for file in bundles_on(contents)]


class Known(WithBundles, WithTree):
    def test_two_thousand_files(self) -> None:
        """Each is acknowledged, and known to all commands; it is given back by the catalogue and by one that is made of the image alone."""
        for index in range(2000):
            write(os.path.join(self.source, "tiny", f"{index} %.txt"), self.chance.randbytes(self.chance.randrange(3000)))
        for name in ODD + [b"n" * 250, b"=b1.tar", b"empty", b"b1.tar"]:
            with open(os.path.join(os.fsencode(self.source), b"tiny", name), "wb") as file:
                file.write(b"" if name == b"empty" else name)
        write(os.path.join(self.source, "tiny", "large"), self.chance.randbytes(70_000))
        before = digests(self.source)
        done = self.bundle()
        self.assertEqual((done.last()["files"], done.last()["bytes"]), (len(before), sum(os.path.getsize(os.path.join(os.fsencode(self.source), path)) for path in before)))
        self.assertEqual(len(self.told(done, "stored")), len(before))
        (volume,) = self.volumes()
        self.assertEqual(volume["files"], len(before))
        # Of the twenty files of `WithTree` no folder has enough.
        self.assertLess(volume["nodes"], 50)
        self.require_known(before)
        length = os.path.getsize(self.image(1, "open"))
        self.assertEqual(self.bundle().last()["same"], len(before))
        self.assertEqual(self.add("--again").last()["same"], len(before))
        self.assertEqual(self.do("diff", self.source, "--at", "/s").last()["same"], len(before))
        self.assertEqual(os.path.getsize(self.image(1, "open")), length)
        self.lose_catalogue()
        self.do("rebuild")
        self.require_known(before)
        self.do("close")
        self.assertEqual(self.do("check", "--data").last()["files"], len(before))
        self.lose_catalogue()
        self.do("rebuild")
        self.require_known(before)
        self.assertEqual(self.do("check", "--data").last()["files"], len(before))

    def require_known(self, before: Any) -> None:
        self.require_agreed()
        self.assertNotIn("mended", [line["did"] for line in self.do("rebuild").objects()])
        self.assertEqual(self.get_all(), before)
        self.assertEqual(len(self.rows()), len(before))
        self.assertEqual(self.do("find", "*.tar").last()["files"], 2)
        self.assertEqual(self.do("find", "/s/tiny/*").last()["files"], sum(path.startswith(b"tiny/") for path in before))
        (place,) = self.places("/s/tiny/=b1.tar")
        self.assertEqual((place["volume"], place["as"][-4:], place["size"]), ("T-000001", ".tar", len(b"=b1.tar")))
        self.assertEqual(len(self.do("history", "/s/tiny/empty").objects()[:-1]), 1)
        for top in (b"latest", b"volumes"):
            shown = {path.removeprefix("/T-000001") for path in self.mounted(top)}
            self.assertEqual(shown, {f"/s/{os.fsdecode(name)}" for name in before})
        self.do("report", self.path("page.html"))
        with open(self.path("page.html"), encoding="utf-8") as file:
            page = file.read()
        self.assertIn(f'"whole":{len(before)},', page)
        self.assertNotIn("/b1.tar", page.replace("/=b1.tar", "").replace('"/s/tiny"', ""))


class Bundles(WithBundles):
    def setUp(self) -> None:
        super().setUp()
        self.init()

    def test_any_system_reads_it(self) -> None:
        """What the program gets from the image is a tar, and the system's own gives back the files of the folder and nothing else."""
        self.make_small(300)
        for name in ODD:
            with open(os.path.join(os.fsencode(self.source), b"small", name), "wb") as file:
                file.write(name)
        self.bundle()
        tars = self.tars(self.image(1, "open"))
        self.assertEqual(tars, ["/data/s/small/=b1.tar", "/data/s/small/=b2.tar"])
        back = self.path("untarred")
        os.mkdir(back)
        for index, path in enumerate(tars):
            done = subprocess.run([UDFBURN, "get", self.image(1, "open"), path], capture_output=True, check=True)
            tar = write(self.path(f"{index}.tar"), done.stdout)
            self.assertLessEqual(len(done.stdout), 1 << 20)
            subprocess.run(["tar", "-x", "-f", tar, "-C", back], check=True, capture_output=True)
        want = {name: (digest, moment // 1_000_000) for name, (digest, moment) in digests(os.path.join(self.source, "small")).items()}
        self.assertEqual({name: (digest, moment // 1_000_000) for name, (digest, moment) in digests(back).items()}, want)

    def test_few_files_and_large_ones(self) -> None:
        """They have their own names on the volume."""
        self.make_small(15)
        for index in range(20):
            write(os.path.join(self.source, "large", str(index)), self.chance.randbytes(65_537))
        self.bundle()
        self.assertEqual(self.tars(self.image(1, "open")), [])
        # With one more they are many.
        write(os.path.join(self.source, "many", "x"), b"x")
        self.make_small(16, 500, "many")
        self.bundle()
        self.assertEqual(self.tars(self.image(1, "open")), ["/data/s/many/=b1.tar"])
        self.assertEqual(self.get_all(), digests(self.source))

    def test_what_changed(self) -> None:
        """A file that changed is stored by itself, and the bundle keeps what it was."""
        self.make_small(40)
        self.bundle()
        before = digests(self.source)
        time.sleep(0.01)
        first = f"{datetime.now(timezone.utc):%Y-%m-%dT%H:%M:%S.%fZ}"
        write(os.path.join(self.source, "small", "00007.txt"), b"changed")
        os.unlink(os.path.join(self.source, "small", "00008.txt"))
        done = self.bundle("--deletions")
        self.assertEqual((done.last()["files"], done.last()["gone"]), (1, 1))
        self.assertEqual((self.get_all(), self.got("/s", "--as-of", first)), (digests(self.source), before))
        self.assertEqual(len(self.do("history", "/s/small/00007.txt").objects()[:-1]), 2)
        self.assertNotIn("as", self.places("/s/small/00007.txt")[0])
        self.lose_catalogue()
        self.do("rebuild")
        self.assertEqual((self.get_all(), self.got("/s", "--as-of", first)), (digests(self.source), before))
        # Many that changed make another one.
        self.make_small(40)
        self.assertEqual(self.bundle().last()["files"], 40)
        self.assertEqual(self.tars(self.image(1, "open")), ["/data/s/small/=b1.tar", "/data/s/small/=b2.tar"])
        self.assertEqual(self.get_all(), digests(self.source))
        self.require_agreed()

    def test_a_folder_that_was_a_file(self) -> None:
        """Then its bundle is among the later versions."""
        write(os.path.join(self.source, "small"), b"a file")
        self.add()
        os.unlink(os.path.join(self.source, "small"))
        self.make_small(20)
        self.bundle()
        self.assertEqual(self.tars(self.image(1, "open")), ["/data/=v2/s/small/=b1.tar"])
        self.do("get", *(f"/s/small/{name}" for name in os.listdir(os.path.join(self.source, "small"))), self.path("back"))
        self.assertEqual(digests(self.path("back")), digests(os.path.join(self.source, "small")))
        self.require_agreed()

    def test_moved(self) -> None:
        """A bundled folder that was moved takes a line for each file, which says where in the bundle it is."""
        self.make_small(40)
        self.bundle()
        before, source = digests(os.path.join(self.source, "small")), self.source
        os.rename(os.path.join(self.source, "small"), self.path("elsewhere"))
        self.source = self.path("elsewhere")
        done = self.add_at("/m", "--bundle")
        self.assertEqual((done.last()["files"], done.last()["same_as"]), (0, 40))
        (text,) = self.node(self.image(1, "open"), "same")
        self.assertIn(b"  the same as T-000001, commit ", text)
        (place,) = self.places("/m/00003.txt")
        self.assertIn(f", bytes {place['start']} to {place['start'] + 4095}: data/s/small/=b1.tar\n".encode(), text)
        for _ in range(2):
            self.assertEqual(self.got("/m"), before)
            self.assertEqual(self.got("/s/small"), before)
            self.do("close", status=None)
            self.do("check", "--data")
            self.lose_catalogue()
            self.do("rebuild")
        self.require_agreed()
        # One that is stored again is found in its own bundle.
        self.assertEqual(self.add_at("/m", "--bundle", "--again").last()["files"], 40)
        self.assertEqual(self.add_at("/m", "--bundle", "--again").last()["same"], 40)
        self.assertEqual(self.do("add", source, "--at", "/s", "--bundle", "--dry-run").last()["files"], 0)


class Damaged(WithBundles):
    def setUp(self) -> None:
        super().setUp()
        self.init()
        self.make_small(300)

    def bad(self, done: Any) -> Set[str]:
        return {line.split(": ")[1].removesuffix(" is not as it was stored") for line in done.errors.splitlines() if line.endswith("is not as it was stored")}

    def test_only_what_a_block_touches(self) -> None:
        self.bundle()
        image = self.image(1, "open")
        change_in(image, self.bytes_of("small/00123.txt")[:40])
        done = self.do("check", "--data", "T-000001", status=1)
        self.assertTrue(any("/s/small/00123.txt is not as it was stored" in line for line in done.errors.splitlines()), done.errors)
        self.assertEqual(done.errors.count("is not as it was stored"), 1 + done.errors.count("file is not as it was stored, the first"))
        folder = self.path("back")
        done = self.do("get", "/s", folder, status=1)
        want = digests(self.source)
        del want[b"small/00123.txt"]
        self.assertEqual((digests(os.path.join(folder, "s")), len(done.last()["failures"])), (want, 1))
        self.assertIn("/s/small/00123.txt: its bytes do not have the SHA-256", done.last()["failures"][0])

    def test_no_source_goes_that_is_damaged_there(self) -> None:
        self.bundle()
        change_in(self.image(1, "open"), self.bytes_of("small/00123.txt")[:40])
        done = self.bundle("--delete-source")
        self.assertEqual((done.last()["deleted"], done.last()["kept"]), (299, 1))
        self.assertEqual(list(digests(self.source)), [b"small/00123.txt"])

    def test_a_damaged_list(self) -> None:
        """The catalogue has the files still; without it that is said, and what other bundles have is known."""
        self.bundle()
        before = digests(self.source)
        image = self.image(1, "open")
        change_in(image, b" 4096 1700000000123458 ")
        done = self.do("check", "--data", "T-000001", status=1)
        self.assertIn("/s/small/=b1.tar is not as it was stored", done.errors)
        done = self.do("rebuild", status=1)
        self.assertIn("/s/small/=b1.tar: the list of its files is damaged", done.last()["failures"][0])
        self.assertEqual((self.get_all(), len(self.rows())), (before, 300))
        self.lose_catalogue()
        self.do("rebuild", status=1)
        self.assertEqual(sorted(self.get_all().items()), sorted(before.items())[-len(self.rows()):])
        self.assertGreater(len(self.rows()), 50)
        tar = subprocess.run([UDFBURN, "get", image, "/data/s/small/=b1.tar"], capture_output=True, check=True).stdout
        back = self.path("untarred")
        os.mkdir(back)
        subprocess.run(["tar", "-x", "-f", write(self.path("x.tar"), tar), "-C", back], check=True, capture_output=True)
        self.assertEqual({path: found[0] for path, found in digests(back).items()}, {path[6:]: found[0] for path, found in sorted(before.items())[: len(digests(back))]})

    def test_what_is_sound_stays(self) -> None:
        """A damaged bundle is taken off its volume once its sound files are in another one, as old as they were."""
        self.bundle()
        old = self.bytes_of("small/00005.txt")
        write(os.path.join(self.source, "small", "00005.txt"), b"newer")
        self.bundle()
        want, lost = digests(self.source), self.bytes_of("small/00123.txt")
        change_in(self.image(1, "open"), lost[:40])
        tars = self.tars(self.image(1, "open"))
        self.assertIn("without them", self.do("close", status=1).errors)
        done = self.do("close", "--without-damaged", "T-000001")
        self.assertEqual(self.told(done, "lacks"), {"/s/small/00123.txt"})
        self.assertEqual([path in self.tars(self.image(1)) for path in tars], [False, True])
        del want[b"small/00123.txt"]
        for _ in range(2):
            self.do("check", "--data")
            self.assertEqual(self.get_all(), want)
            self.assertEqual([line["size"] for line in self.do("history", "/s/small/00005.txt").objects()[:-1]], [5, len(old)])
            self.require_agreed()
            self.lose_catalogue()
            self.do("rebuild")
        self.assertEqual(self.bundle().last()["files"], 1)
        self.assertEqual(self.get_all(), digests(self.source))

    def test_no_line_loses_its_bytes(self) -> None:
        """A damaged bundle stays as long as another path has sound bytes in it alone."""
        self.bundle()
        source = self.source
        self.source = self.path("twin")
        shutil.copytree(os.path.join(source, "small"), self.source)
        os.unlink(os.path.join(self.source, "00123.txt"))
        self.assertEqual(self.add_at("/m", "--bundle").last()["same_as"], 299)
        with open(os.path.join(source, "small", "00123.txt"), "rb") as file:
            change_in(self.image(1, "open"), file.read()[:40])
        before = self.tars(self.image(1, "open"))
        self.assertIn(" is damaged, and has the bytes of /m/00", self.do("close", "--without-damaged", status=1).errors)
        self.assertEqual(self.tars(self.image(1, "open")), before)
        self.assertEqual(self.got("/m"), digests(self.source))
        self.assertEqual(self.add_at("/m", "--bundle", "--again").last()["files"], 299)
        done = self.do("close", "--without-damaged")
        self.assertEqual(self.told(done, "lacks"), {"/s/small/00123.txt"})
        self.assertEqual(self.got("/m"), digests(self.source))
        self.do("check", "--data")

    def test_a_volume_that_is_retired(self) -> None:
        """Its files are stored again, and need nobody."""
        self.bundle()
        self.do("close")
        self.do("put-away", "T-000001", "the shelf")
        os.unlink(self.image(1))
        self.assertEqual(self.do("retire", "T-000001").last()["others"], 0)
        self.assertEqual(self.do("status", "--check").last()["attention"], 0)
        self.assertEqual(self.bundle().last()["files"], 300)
        self.assertEqual(self.get_all(), digests(self.source))

    def test_copies(self) -> None:
        """With `delete = "copied"` the sources go in the same run, and the image comes back from a copy."""
        copies = self.path("copies")
        os.mkdir(copies)
        shutil.rmtree(self.archive)
        self.init("--copies", copies)
        before = digests(self.source)
        self.assertEqual(self.bundle("--delete-source").last()["deleted"], 300)
        os.unlink(self.image(1, "open"))
        self.do("repair")
        self.assertEqual(self.get_all(), before)


class Interrupted(WithBundles):
    def setUp(self) -> None:
        super().setUp()
        self.init("--capacity", "20000")
        self.make_small(600)

    def test_kills(self) -> None:
        """Whatever was acknowledged is on the image; the same command stores the rest, and nothing twice."""
        before = digests(self.source)
        for count, least in ((2, 0), (4, 0), (5, 200), (6, 400)):
            with self.subTest(count=count):
                shutil.rmtree(self.archive)
                self.init("--capacity", "20000")
                output = self.path(f"output-{count}")
                self.killed_after(count, output)
                with open(output, encoding="utf-8") as file:
                    stored = {line.split()[1] for line in file if line.startswith("stored /")}
                self.assertGreaterEqual(len(stored), least)
                self.lose_catalogue()
                self.do("rebuild")
                there = {row["path"] for row in self.rows()}
                self.assertLessEqual(stored, there)
                # The bundle that was answered last is there with all its files, though nothing was said of them.
                self.assertGreaterEqual(len(there - stored), 100 if count > 3 else 0)
                self.assertEqual(self.bundle().last()["same"], len(there))
                self.assertEqual(self.get_all(), before)
                self.assertEqual(len(self.rows()), 600)
                self.require_agreed()

    def killed_after(self, count: int, output: str) -> None:
        """An `add` that is killed once a volume has answered so many of its requests. It acknowledges each bundle by itself."""
        words = ["add", self.source, "--at", "/s", "--bundle", "--archive", self.archive]
        with open(output, "wb") as file:
            process = subprocess.Popen([sys.executable, "-c", ONE_BY_ONE + STOPS, str(count), *words], env=environment(), stdout=file, stderr=file, start_new_session=True)
            wait_until(lambda: process.poll() is not None or state_of(process.pid) == "T")
            kill(process)

    def test_a_file_that_changes_while_it_is_read(self) -> None:
        """It is named, and the others of its bundle are stored."""
        def changed(source: Source) -> Iterator[bytes]:
            parts = read_parts(source)
            if source.path[-1] == "00010.txt":
                write(os.path.join(self.source, "small", "00010.txt"), b"changed")
            yield from parts

        output, errors = StringIO(), StringIO()
        with mock.patch("udfburn.archive.bundling.read_parts", changed), mock.patch.dict(os.environ, environment()), redirect_stdout(output), redirect_stderr(errors):
            self.assertEqual(main(["add", self.source, "--at", "/s", "--bundle", "--archive", self.archive]), 1)
        self.assertIn("00010.txt: ", errors.getvalue())
        self.assertNotIn("/s/small/00010.txt", output.getvalue())
        self.assertEqual(output.getvalue().count("stored /"), 599)
        want = digests(self.source)
        del want[b"small/00010.txt"]
        self.assertEqual(self.get_all(), want)
        self.require_agreed()
        self.assertEqual(self.bundle().last()["files"], 1)
        self.assertEqual(self.get_all(), digests(self.source))

    def test_volumes_that_fill_up(self) -> None:
        """Small volumes take bundles that fit, each file once."""
        shutil.rmtree(self.archive)
        self.init("--capacity", "1200")
        self.bundle()
        self.assertGreater(len(self.volumes()), 1)
        self.assertEqual((self.get_all(), len(self.rows())), (digests(self.source), 600))
        self.assertEqual(sum(volume["files"] for volume in self.volumes()), 600)
        self.require_agreed()

    def test_lists_have_a_budget(self) -> None:
        """A volume whose lists have as many bytes as are read together takes no more bundles."""
        with mock.patch("udfburn.archive.tree.MOST", 70_000), mock.patch.dict(os.environ, environment()), redirect_stdout(StringIO()):
            self.assertEqual(main(["add", self.source, "--at", "/s", "--bundle", "--archive", self.archive]), 0)
        self.assertEqual([volume["files"] < 600 for volume in self.volumes()], [True, True])
        self.assertEqual(self.get_all(), digests(self.source))


class Room(WithBundles):
    def test_room(self) -> None:
        """What a file takes in a bundle. Of a file of 4 KiB the header that a tar has for it is an eighth."""
        for size, most in ((4096, 1.19), (10_000, 1.11)):
            with self.subTest(size=size):
                shutil.rmtree(self.archive, ignore_errors=True)
                self.init()
                self.make_small(500, size, f"{size}")
                self.bundle()
                first = os.path.getsize(self.image(1, "open"))
                self.make_small(500, size, f"{size} more")
                self.bundle()
                self.assertLess((os.path.getsize(self.image(1, "open")) - first) / (500 * size), most)


class Image:
    """What stands for a volume that has one file."""

    image = "x.img"

    def __init__(self, data: bytes):
        self.data = data

    def span(self, file: File, start: int, size: Size) -> bytes:
        return self.data[start : start + size]


class Lists(unittest.TestCase):
    """What a list may say, whoever wrote it."""

    FILES = [("a", Moment(5), b"1"), ("b", Moment(6), b"22")]

    def read(self, data: bytes) -> Any:
        file = File(("s", "/b1.tar"), 1, ("data", "s", "=b1.tar"), (), Size(len(data)), Moment(0), Commit(1), Moment(0), None, None, None)
        return read_list(Image(data), file)  # type: ignore[arg-type]

    def test_what_it_says(self) -> None:
        data, members = bundled(self.FILES)
        self.assertEqual(self.read(data), (members, None))
        self.assertEqual(self.read(bundled(self.FILES, Moment(7))[0])[1], 7)
        self.assertEqual([data[member.start : member.start + member.size] for member in members], [b"1", b"22"])

    def test_what_is_no_list(self) -> None:
        data, (one, two) = bundled(self.FILES)
        bad = {
            "beyond": [one._replace(start=len(data))], "twice": [one, one], "above": [one._replace(name="..")], "a path": [one._replace(name="x/y")],
            "large": [one._replace(size=Size(1 << 62))], "in common": [each._replace(start=0, size=Size(len(data))) for each in (one, two)],
            "late": [one._replace(moment=Moment(1 << 62))], "nothing": [one._replace(name="")],
        }
        for why, members in bad.items():
            with self.subTest(why=why), self.assertRaisesRegex(VolumeDiffers, "/s/=b1.tar: the list of its files is damaged"):
                self.read(list_of(members).ljust(len(data), b"\0"))
        for why, other in (("short", data[:300]), ("empty", b""), ("zeros", bytes(len(data))), ("another digit", data.replace(b" 5 000", b" 6 000")), ("no list", data[1024:])):
            with self.subTest(why=why), self.assertRaisesRegex(VolumeDiffers, "the list of its files is damaged"):
                self.read(other)


@unittest.skipUnless(programs() and driver(), "PostgreSQL is not installed")
class OnServer(WithBundles):
    def test_a_catalogue_of_a_server(self) -> None:
        server = Server(self)
        self.init("--catalogue", server.new_base("archive"))
        self.make_small(100)
        write(os.path.join(self.source, "small", "=b1.tar"), b"a file")
        self.bundle()
        before = digests(self.source)
        self.assertEqual((self.get_all(), len(self.rows())), (before, 101))
        self.assertEqual(self.do("find", "*b1*").objects()[0]["path"], "/s/small/=b1.tar")
        self.assertEqual(self.do("find", "*.tar").last()["files"], 1)
        self.assertEqual(self.do("find", "/s/small/*").last()["files"], 101)
        self.assertEqual(self.bundle().last()["same"], 101)
        self.require_agreed()
        os.rename(os.path.join(self.source, "small"), os.path.join(self.source, "moved"))
        self.assertEqual(self.bundle().last()["same_as"], 101)
        self.assertEqual(self.got("/s/moved"), digests(os.path.join(self.source, "moved")))
        self.do("close")
        self.do("check", "--data")
        self.do("retire", "T-000001", status=1)
