"""Files above a mebibyte, each stored as one: at the end of a volume, after a run that was cut, over several volumes, and as older
archives have them."""

from __future__ import annotations

import hashlib
import os
import random
import shutil
import sys
from contextlib import closing, redirect_stderr, redirect_stdout
from io import StringIO
from typing import Dict, List, Optional, Sequence, Tuple
from unittest import mock

from .support import PACKAGE, UDFBURN, WithArchive, digests, write

sys.path.insert(0, PACKAGE)

from udfburn import Client  # noqa: E402
from udfburn.archive import cli, fill, volume  # noqa: E402
from udfburn.archive.config import read  # noqa: E402
from udfburn.archive.tell import Tell  # noqa: E402
from udfburn.archive.tree import PlannedTree  # noqa: E402
from udfburn.archive.view import ArchiveFile, ArchiveView, FolderState  # noqa: E402
from udfburn.base.unfinished import UNDER_WAY  # noqa: E402
from udfburn.wire.operations import Operation  # noqa: E402
from udfburn.protocol import Append, Code, Create, MakeDir, Path, Rename, limits  # noqa: E402
from udfburn.protocol.units import Address, Moment
from udfburn.reader import FileType, Medium, Volume  # noqa: E402

MEBIBYTE = 1 << 20
SIZES = (MEBIBYTE - 1, MEBIBYTE, MEBIBYTE + 1, 3 * MEBIBYTE, 3_500_000)


class Killed(BaseException):
    """The process ends here."""


def content(size: int, seed: int = 0) -> bytes:
    return random.Random(size + seed).randbytes(size)


def files_of(image: str) -> Dict[str, int]:
    """The files of an image, with their sizes."""
    with Medium(image) as medium:
        nodes = Volume(medium).state().walk()
        return {"/".join(node.path): node.size for node in nodes if node.kind is FileType.FILE}


class Whole(WithArchive):
    def image(self, number: int = 1) -> str:
        return self.path("archive", "open", f"T-{number:06}.img")

    def unfinished(self, number: int = 1) -> List[str]:
        return [name for name in files_of(self.image(number)) if name.startswith(".udfburn-unfinished-")]

    def write(self, name: str, size: int, seed: int = 0) -> str:
        return write(os.path.join(self.source, name), content(size, seed))

    def run_here(self, *words: str) -> Tuple[int, str]:
        """A command in this process, `add` where none is named."""
        command = list(words) if words and not words[0].startswith("-") else ["add", self.source, "--at", "/s", *words]
        with redirect_stdout(StringIO()) as output, redirect_stderr(StringIO()) as errors, mock.patch.dict(os.environ, UDFBURN=UDFBURN):
            status = cli.main([*command, "--archive", self.archive])
        return status, output.getvalue() + errors.getvalue()

    def cut(self, count: int, kind: type = Append) -> None:
        """`add`, which ends once so many requests of a kind are answered."""
        left = [count]
        run = Client.run

        def cut_short(client: Client, operations: Sequence[Operation]) -> object:
            for outcome in run(client, operations):
                yield outcome
                left[0] -= outcome.operation.kind is kind
                if left[0] < 0:
                    raise Killed

        with mock.patch.object(Client, "run", cut_short), self.assertRaises(Killed):
            self.run_here()

    def require_all(self) -> None:
        """Every file comes back as it was, by `get` and as the mount reads it, and the volumes say what the catalogue says."""
        self.assertEqual(self.get_all(), digests(self.source))
        self.require_agreed()
        with closing(ArchiveView(read(self.archive), Tell(True, False))) as view:
            for path, (digest, _) in digests(self.source).items():
                found = FolderState(view, None, ("s",))
                for name in path.split(b"/"):
                    found = found.find(name)  # type: ignore[assignment]
                assert isinstance(found, ArchiveFile)
                way = found.ways()[0]
                data = b"".join(found.piece(index, way) for index in range(max(-(-found.size // MEBIBYTE), 1)))
                self.assertEqual(hashlib.sha256(data).hexdigest(), digest, path)


class Sizes(Whole):
    def test_one_file_each(self) -> None:
        """Also in a bag, from the volumes alone, and beside small files."""
        self.init()
        for size in SIZES:
            self.write(f"f{size}", size)
        for index in range(60):
            self.write(f"small/{index}", 300 + index)
        self.assertEqual(self.add().last()["files"], 65)
        found = {name: size for name, size in files_of(self.image()).items() if name.startswith("data/s/f")}
        self.assertEqual(found, {f"data/s/f{size}": size for size in SIZES})
        self.assertEqual(self.unfinished(), [])
        self.require_all()
        self.assertEqual(self.add().last()["same"], 65)
        self.do("close")
        with Medium(self.path("archive", "closed", "T-000001.img")) as medium:
            opened = Volume(medium)
            lines = opened.read(opened.state().find(("manifest-sha256.txt",))).data.decode().splitlines()  # type: ignore[arg-type]
        for size in SIZES:
            self.assertIn(f"{hashlib.sha256(content(size)).hexdigest()}  data/s/f{size}", lines)
        rows = self.rows()
        for name in os.listdir(self.archive):
            if name.startswith("catalogue"):
                os.unlink(os.path.join(self.archive, name))
        self.do("rebuild")
        self.assertEqual(self.rows(), rows)
        self.require_all()
        self.assertEqual(self.do("check", "--data").last()["failures"], [])
        self.assertEqual(self.add("--delete-source").last()["deleted"], 65)

    def test_the_end_of_a_volume(self) -> None:
        """What is planned is what is written, to the block, and no file is begun that does not fit."""
        flush = fill.Filler.flush
        told: List[Tuple[int, int]] = []
        full = mock.Mock()

        def measured(filler: fill.Filler, opened: volume.OpenVolume) -> object:
            planned, sends = opened.tree.space.next, bool(filler.planned.get(opened.row.number))
            left = flush(filler, opened)
            if sends:
                told.append((planned, os.path.getsize(opened.image) // 2048))
            full(len(left))
            return left

        for capacity in (3600, 4100, 5200):
            shutil.rmtree(self.archive, ignore_errors=True)
            shutil.rmtree(self.source)
            os.mkdir(self.source)
            self.init("--capacity", str(capacity))
            for index in range(3):
                for size in SIZES:
                    self.write(f"d{index}/f{size}", size, index)
            with mock.patch.object(fill.Filler, "flush", measured):
                status, output = self.run_here()
            self.assertEqual(status, 0, output)
            self.assertNotIn("=0", "".join(name for row in self.volumes() for name in files_of(self.image(int(row["volume"][2:])))))
            self.require_all()
        for planned, written in told:
            self.assertEqual(planned, written)
        self.assertEqual({call.args[0] for call in full.call_args_list}, {0})


    def test_few_are_unfinished_at_once(self) -> None:
        """Each gets its name once its pieces are acknowledged, so the root has few names more."""
        self.init()
        for index in range(2 * UNDER_WAY):
            self.write(f"f{index}", MEBIBYTE + 9, index)
        run, left, most = Client.run, [0], [0]

        def counted(client: Client, operations: Sequence[Operation]) -> object:
            for outcome in run(client, operations):
                name = outcome.operation.path[0].startswith(".udfburn-unfinished-")
                left[0] += name * ((outcome.operation.kind is Create) - (outcome.operation.kind is Rename))
                most[0] = max(most[0], left[0])
                yield outcome

        with mock.patch.object(Client, "run", counted):
            self.assertEqual(self.run_here()[0], 0)
        self.assertEqual(left[0], 0)
        self.assertTrue(0 < most[0] <= UNDER_WAY, most)
        self.require_all()


class Cut(Whole):
    """A run that ended in the middle of a file."""

    def setUp(self) -> None:
        super().setUp()
        self.init()
        self.write("photo", 3_500_000)

    def commits(self) -> int:
        return int(self.volumes()[0]["last_commit"])

    def test_it_is_gone_on_with(self) -> None:
        for pieces in (0, 1, 2):
            shutil.rmtree(self.archive)
            self.init()
            self.cut(pieces)
            self.assertEqual(self.rows(), [])
            (name,) = self.unfinished()
            self.assertEqual(self.do("rebuild").last()["failures"], [])
            self.assertEqual(self.rows(), [])
            self.assertEqual(self.do("status").last()["attention"], 0)
            before = self.commits()
            self.assertEqual(self.add().last()["files"], 1)
            self.assertEqual(self.unfinished(), [])
            self.require_all()
            # The text of the run, the pieces that were missing and the name: none twice. Those under way were sent again before.
            self.assertLessEqual(self.commits() - before, 2 + 3 - pieces)

    def test_a_lost_ledger(self) -> None:
        """A client with another number goes on with it."""
        self.cut(1)
        for end in ("", "-wal", "-shm", ".lock"):
            if os.path.exists(self.path("archive", "open", "T-000001.ledger" + end)):
                os.unlink(self.path("archive", "open", "T-000001.ledger" + end))
        blocks = os.path.getsize(self.image())
        self.add()
        self.require_all()
        self.assertLess(os.path.getsize(self.image()) - blocks, 2 * MEBIBYTE)

    def test_another_source(self) -> None:
        """The source is another by now, by one byte of what was stored: what there is of the old one goes."""
        path, data = self.write("photo", 20_000_000), content(20_000_000)
        self.cut(1)
        (name,) = self.unfinished()
        self.assertLess(files_of(self.image())[name], 20_000_000)
        write(path, data[: MEBIBYTE + 7] + bytes((data[MEBIBYTE + 7] ^ 1,)) + data[MEBIBYTE + 8 :])
        self.add()
        self.assertEqual(self.unfinished(), [])
        self.require_all()

    def test_a_newer_version_came_between(self) -> None:
        """What is whole but for its name would count as added when it was begun."""
        self.cut(2)
        old = self.path("old")
        shutil.copy2(os.path.join(self.source, "photo"), old)
        write(os.path.join(self.source, "photo"), b"newer")
        self.add()
        shutil.copy2(old, os.path.join(self.source, "photo"))
        self.add()
        self.require_all()

    def test_a_deletion_came_between(self) -> None:
        """What is whole but for its name would count as gone."""
        path, away = os.path.join(self.source, "photo"), self.path("away")
        os.rename(path, away)
        write(path, b"old")
        self.write("small", 10)
        self.add()
        os.rename(away, path)
        self.cut(2)
        os.rename(path, away)
        self.assertEqual(self.add("--deletions").last()["gone"], 1)
        os.rename(away, path)
        self.add()
        self.require_all()

    def test_it_cannot_be_read(self) -> None:
        """A block of it is lost: it goes, and all is stored."""
        self.cut(1)
        self.write("small", 10)
        with open(self.image(), "rb") as file:
            lost, whole = file.read().index(content(3_500_000)[:40]) // limits.BLOCK, Medium._read

        def read_but(medium: Medium, address: Address, count: int) -> Optional[bytes]:
            return None if address <= lost < address + count else whole(medium, address, count)

        with mock.patch.object(Medium, "_read", read_but):
            status, output = self.run_here()
        self.assertEqual(status, 0, output)
        self.assertEqual(self.unfinished(), [])
        self.require_all()

    def test_close_takes_it_off(self) -> None:
        """No bag has it."""
        self.cut(1)
        os.unlink(os.path.join(self.source, "photo"))
        self.write("small", 10)
        self.add()
        self.assertEqual(len(self.unfinished()), 1)
        self.do("close")
        found = files_of(self.path("archive", "closed", "T-000001.img"))
        self.assertEqual([name for name in found if "unfinished" in name], [])
        self.require_all()
        self.assertEqual(self.do("check", "--data").last()["failures"], [])

    def test_close_has_no_room_to_take_it_off(self) -> None:
        """It stays, and no bag has it."""
        self.cut(1)
        with mock.patch.object(PlannedTree, "has_room_to_remove", return_value=False):
            status, output = self.run_here("close", "T-000001")
        self.assertEqual(status, 0, output)
        image = self.path("archive", "closed", "T-000001.img")
        (name,) = [name for name in files_of(image) if name.startswith(".udfburn-unfinished-")]
        with open(image, "rb") as file:
            self.assertNotIn(b"  " + name.encode(), file.read())
        self.assertEqual(self.do("check", "--data").last()["failures"], [])
        self.add()
        self.require_all()

    def test_the_source_changes_meanwhile(self) -> None:
        """It does not get its name, no source goes, and the next run stores it as it is then."""
        path, run = self.write("photo", 40_000_000), Client.run

        def changing(client: Client, operations: Sequence[Operation]) -> object:
            for outcome in run(client, operations):
                if outcome.operation.kind is Append:
                    with open(path, "r+b") as file:
                        file.write(b"other")
                yield outcome

        with mock.patch.object(Client, "run", changing):
            status, output = self.run_here("--delete-source")
        self.assertEqual(status, 1)
        self.assertIn("changed while it was read", output)
        self.assertEqual((self.rows(), os.path.exists(path), len(self.unfinished())), ([], True, 1))
        before = digests(self.source)
        self.assertEqual(self.add("--delete-source").last()["deleted"], 1)
        self.assertEqual((self.get_all(), self.unfinished()), (before, []))
        self.require_agreed()

    def test_adopted(self) -> None:
        """Another folder of the archive goes on with it."""
        self.cut(1)
        shutil.copy(self.image(), self.path("kept.img"))
        self.do("adopt", "T-000001", self.path("kept.img"))
        self.add()
        self.assertEqual(self.unfinished(), [])
        self.require_all()


class InParts(Whole):
    """A file that no volume has room for."""

    def test_one_part_a_volume(self) -> None:
        self.init("--capacity", "5000")
        self.write("film", 17_000_000)
        self.add()
        self.require_all()
        sizes: List[int] = []
        for row in self.volumes():
            found = {name: size for name, size in files_of(self.image(int(row["volume"][2:]))).items() if name.startswith("data/")}
            (part,) = [name for name in found if not name.endswith("=file.txt")]
            self.assertEqual(part, f"data/s/film/={sum(sizes):015}")
            sizes.append(found[part])
        self.assertEqual(sum(sizes), 17_000_000)
        self.assertEqual({size % MEBIBYTE for size in sizes[:-1]}, {0})
        self.assertEqual(self.add().last()["same"], 1)
        self.do("close")
        self.assertEqual(self.do("check", "--data").last()["failures"], [])
        self.require_all()

    def test_parts_of_more_extents_than_an_entry_lists(self) -> None:
        """Each is as large as fits, and one is on each volume."""
        self.init("--capacity", "66000")
        self.write("film", 130 * MEBIBYTE)
        self.add()
        self.require_all()
        found = [{name: size for name, size in files_of(self.image(number)).items() if name.startswith("data/s/film/=0")} for number in (1, 2)]
        first = found[0]["data/s/film/=000000000000000"]
        self.assertEqual(found, [{"data/s/film/=000000000000000": first}, {f"data/s/film/={first:015}": 130 * MEBIBYTE - first}])
        self.assertEqual(first % MEBIBYTE, 0)
        # An append asks for 1,029 blocks, and what `close` writes takes some more.
        self.assertTrue(118 <= first // MEBIBYTE and 66_000 - os.path.getsize(self.image(1)) // limits.BLOCK < 2000)
        self.do("close")
        self.assertEqual(self.do("check", "--data").last()["failures"], [])

    def test_one_file_where_a_volume_has_room(self) -> None:
        """More extents than an entry lists, gone on with where the append was cut that writes the first descriptor block."""
        self.init("--capacity", "140000")
        self.write("small", 3 * MEBIBYTE)
        self.write("film", 125 * MEBIBYTE + 5)
        self.cut(116)
        blocks = os.path.getsize(self.image())
        self.add()
        self.require_all()
        found = {name: size for name, size in files_of(self.image()).items() if name.startswith("data/s/film")}
        self.assertEqual(found, {"data/s/film": 125 * MEBIBYTE + 5})
        self.assertLess(os.path.getsize(self.image()) - blocks, 14 * MEBIBYTE)
        self.assertEqual(self.unfinished(), [])
        self.assertEqual(self.add().last()["same"], 2)
        self.do("close")
        self.assertEqual(self.do("check", "--data").last()["failures"], [])

    def test_cut(self) -> None:
        """After each piece: the parts that are whole stay, and the one that is not is gone on with."""
        for count in (0, 2, 4, 7):
            shutil.rmtree(self.archive, ignore_errors=True)
            self.init("--capacity", "4000")
            self.write("film", 10_000_000)
            self.cut(count)
            self.assertEqual(self.rows(), [])
            sizes = sum(os.path.getsize(self.image(int(row["volume"][2:]))) for row in self.volumes())
            self.add()
            self.require_all()
            after = sum(os.path.getsize(self.image(int(row["volume"][2:]))) for row in self.volumes())
            self.assertLess(after - sizes, 10_000_000 - count * MEBIBYTE + 2_000_000)

    def test_the_last_parts_were_stored_first(self) -> None:
        """A run was cut that way before there was an order: nothing is lost, and the command ends well."""
        self.init("--capacity", "4000")
        self.write("film", 10_000_000)
        self.add()
        lost = [row for row in self.volumes()][0]["volume"]
        for name in os.listdir(self.path("archive", "open")):
            if name.startswith(lost):
                os.unlink(self.path("archive", "open", name))
        for name in os.listdir(self.archive):
            if name.startswith("catalogue"):
                os.unlink(os.path.join(self.archive, name))
        self.do("rebuild")
        self.assertEqual(self.rows(), [])
        last = self.add().last()
        self.assertEqual((last["files"], last["failures"]), (1, []))
        self.require_all()
        self.assertEqual(self.add().last()["same"], 1)


def older_layout(path: Path, data: bytes, moment: int) -> List[Operation]:
    """The requests by which archives before stored a file above a mebibyte: parts of a mebibyte."""
    pieces = [data[at : at + MEBIBYTE] for at in range(0, len(data), MEBIBYTE)]
    text = f"size: {len(data)}\nmodified: {moment}\nsha256: {hashlib.sha256(data).hexdigest()}\nparts: {len(pieces)}\nfirst part: 0\n"
    wanted = [Operation(MakeDir, path, Moment(moment)), Operation(Create, path + ("=file.txt",), Moment(moment), text.encode()), Operation(MakeDir, path + ("=p0",), Moment(moment))]
    return wanted + [Operation(Create, path + ("=p0", f"{index:08}"), Moment(moment), piece) for index, piece in enumerate(pieces)]


class Older(Whole):
    def setUp(self) -> None:
        super().setUp()
        self.init()
        self.write("a", 10)
        self.add()
        self.photo = self.write("photo", 3_500_000)
        self.moment = os.stat(self.photo).st_mtime_ns // 1000

    def store(self, operations: Sequence[Operation]) -> None:
        with Client(f"image:{self.image()}", ledger=self.path("archive", "open", "T-000001.ledger"), program=UDFBURN) as client:
            for outcome in client.run(operations):
                self.assertIs(outcome.code, Code.DONE)
        self.do("rebuild")

    def test_they_are_read(self) -> None:
        self.store(older_layout(("data", "s", "photo"), content(3_500_000), self.moment))
        self.assertEqual([row["path"] for row in self.rows()], ["/s/a", "/s/photo"])
        self.assertEqual(self.add().last()["same"], 2)
        self.require_all()
        self.do("close")
        self.assertEqual(self.do("check", "--data").last()["failures"], [])
        self.require_all()
        # Their bytes are those of a file that moved, too.
        os.rename(self.photo, self.photo + " moved")
        self.assertEqual(self.add().last()["same_as"], 1)
        os.rename(self.photo + " moved", self.photo)
        shutil.copy2(self.photo, self.photo + " moved")
        self.require_all()
        # The source goes only for bytes that were seen.
        self.assertEqual(self.add("--delete-source").last()["deleted"], 3)

    def test_a_run_that_was_cut(self) -> None:
        """What is missing is stored, in one part."""
        self.store(older_layout(("data", "s", "photo"), content(3_500_000), self.moment)[:-2])
        self.assertEqual([row["path"] for row in self.rows()], ["/s/a"])
        self.add()
        found = [name for name in files_of(self.image()) if name.startswith("data/s/photo/")]
        self.assertEqual(sorted(found), [f"data/s/photo/{name}" for name in ("=000000002097152", "=file.txt", "=p0/00000000", "=p0/00000001")])
        self.require_all()
        self.do("close")
        self.assertEqual(self.do("check", "--data").last()["failures"], [])
