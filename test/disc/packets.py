"""Writes discs in emulated recorders in packets, with the C library, whose SG_IO a small library takes to the recorder: no kernel is needed.

    packets.py UDFBURN LIBRARY ROOM

LIBRARY is the folder of the C library that packaging/library/build.sh built. With LARGE=1 in the environment power is lost more often.
"""

from __future__ import annotations

import errno
import os
import subprocess
import sys
import time
import traceback
from contextlib import contextmanager
from functools import partial
from pathlib import Path
from random import Random
from typing import Callable, Dict, Iterator, List, NamedTuple, Optional, Tuple

TOP = Path(__file__).resolve().parents[2]
sys.path.insert(1, str(TOP / "clients/python"))

from recorder import BLOCK, KINDS, Faults, Recorder  # noqa: E402
from sg import Line  # noqa: E402
from udfburn.discs.finish import COPIES, entry_at  # noqa: E402
from udfburn.protocol.units import Address
from udfburn.reader import Medium  # noqa: E402

DEVICE = "/dev/sr0"
SIZES = (0, 1, 1800, 1900, 2048, 5000, 40_000, 150_000)
"""Bytes of files: inside their entries, and of one block and more."""

FORMAT_END = 262
"""The blocks of a format."""

NEEDED = {16, 17, 18, *range(32, 38), *range(48, 54), 64, 65, 256}
"""The blocks before the partition that have something (docs/FORMAT.md)."""

BAD = (100, 271, 300, 333, 400, 500, 600, 700, 850)
"""Addresses at which a write fails: in the format, in the unit of its end, and in commits."""

CUTS = 200 if os.environ.get("LARGE") else 15
WRITES = (0x2A, 0x35)
"""WRITE(10) and SYNCHRONIZE CACHE."""

PATIENCE = 600.0
"""Seconds after which a program that did not end hangs."""


class Ran(NamedTuple):
    """What a program said, and the files that it stored."""

    status: int
    output: str
    errors: str
    stored: List[str]


class Room:
    """What the tests share: the programs, and files to store."""

    def __init__(self, udfburn: str, library: Path, folder: Path):
        self.udfburn, self.folder, self.library = udfburn, folder, library
        self.programs = {name: str(folder / name) for name in ("packet", "mmc")}
        words = ["cc", "-std=c99", "-O1", "-g", "-Wall", "-Wextra", "-Werror", "-pedantic", f"-I{library}", f"-I{TOP / 'test/library'}"]
        for name, source in (("packet", TOP / "examples/packet.c"), ("mmc", TOP / "test/disc/mmc.c")):
            subprocess.run([*words, str(source), str(library / "libudfburn_drive.a"), "-pthread", "-o", self.programs[name]], check=True)
        self.shim = str(folder / "sg.so")
        subprocess.run(["cc", "-shared", "-fPIC", "-O1", "-Wall", "-Wextra", "-Werror", str(TOP / "test/disc/sg.c"), "-o", self.shim, "-ldl"], check=True)
        self.chance = Random(2)
        self.made = 0

    def files(self, count: int) -> List[Path]:
        """New files."""
        found = []
        for _ in range(count):
            self.made += 1
            path = self.folder / f"f{self.made}"
            path.write_bytes(self.chance.randbytes(SIZES[self.made % len(SIZES)]))
            found.append(path)
        return found

    @contextmanager
    def line(self, recorder: Recorder) -> Iterator[Dict[str, str]]:
        """The environment in which programs have a recorder as their device."""
        path = str(self.folder / "socket")
        line = Line(path, recorder)
        try:
            yield {**os.environ, "LD_PRELOAD": self.shim, "SG_DEVICE": DEVICE, "SG_SOCKET": path}
        finally:
            line.close()
            os.unlink(path)

    def run(self, recorder: Recorder, name: str, *words: str) -> Ran:
        with self.line(recorder) as environment:
            done = subprocess.run([self.programs[name], DEVICE, *words], env=environment, capture_output=True, text=True, timeout=PATIENCE, check=False)
        stored = [line[7:] for line in done.stdout.splitlines() if line.startswith("stored ")]
        return Ran(done.returncode, done.stdout, done.stderr, stored)

    def client(self, recorder: Recorder, *words: str) -> Ran:
        """Runs the client on the disc in a recorder."""
        with self.line(recorder) as environment:
            environment.update(
                PYTHONPATH=str(TOP / "clients/python"), UDFBURN_LIBRARY=str(self.library / "libudfburn.so.0"), UDFBURN_LEDGER=str(self.folder / "ledger"),
                UDFBURN=self.udfburn,
            )
            done = subprocess.run(
                [sys.executable, "-m", "udfburn", *words, "--device", DEVICE], env=environment, capture_output=True, text=True, timeout=PATIENCE, check=False,
            )
        return Ran(done.returncode, done.stdout, done.stderr, [])

    def store(self, recorder: Recorder, files: List[Path]) -> Ran:
        return self.run(recorder, "packet", "DISC", *map(str, files))

    def image_of(self, recorder: Recorder) -> Path:
        path = self.folder / "image"
        path.write_bytes(recorder.image())
        return path

    def require(self, recorder: Recorder, names: List[str], commits: Optional[int] = None) -> None:
        """Raises where a file that was stored is not on the medium, or a commit of it is not sound."""
        image = str(self.image_of(recorder))
        said = subprocess.run([self.udfburn, "check", image], capture_output=True, text=True, check=False)
        if not said.stdout.startswith("sound ") or commits is not None and said.stdout != f"sound {commits}\n":
            raise AssertionError(f"{commits} commits: {said.stdout}{said.stderr}")
        for name in names:
            found = subprocess.run([self.udfburn, "get", image, f"/{os.path.basename(name)}"], capture_output=True, check=False)
            if found.returncode or found.stdout != Path(name).read_bytes():
                raise AssertionError(f"{name} was stored, and is not there: {found.stderr!r}")


def expect(holds: bool, what: object) -> None:
    if not holds:
        raise AssertionError(str(what))


def expect_end(room: Room, recorder: Recorder) -> None:
    """The disc ends as readers need it: with the VAT ICB and at least three copies, up to the end of a unit."""
    assert recorder.kind
    last = recorder.last_recorded()
    expect((last + 1) % recorder.kind.unit == 0, f"the disc ends at {last}")
    with Medium(str(room.image_of(recorder))) as medium:
        for address in range(last - COPIES, last + 1):
            expect(entry_at(medium, Address(address)) is not None, f"{address} is no VAT ICB")


# ---- good discs

def good(room: Room, kind: str, faults: Faults) -> None:
    """Twenty files, and five more by another run. Each commit is one packet, and is synchronised once."""
    recorder = Recorder("GOOD", kind, faults=faults)
    files = room.files(20)
    first = room.store(recorder, files)
    expect(first.status == 0 and first.stored == [str(path) for path in files], first)
    expect(recorder.synchronized == 21 and recorder.locks == 3 and not recorder.locked, (recorder.synchronized, recorder.locks, recorder.locked))
    room.require(recorder, first.stored, 20)
    expect_end(room, recorder)
    second = room.store(recorder, room.files(5))
    expect(second.status == 0 and len(second.stored) == 5, second)
    room.require(recorder, first.stored + second.stored, 25)
    expect_end(room, recorder)


def calls(room: Room, kind: str) -> None:
    recorder = Recorder("CALLS", kind)
    said = room.run(recorder, "mmc", "blank")
    expect(said.status == 0 and said.output.endswith(" 0 failed\n"), said)
    expect(recorder.locks == recorder.unlocks > 3, (recorder.locks, recorder.unlocks))
    unit, blocks = KINDS[kind].unit, min(KINDS[kind].blocks - 7 * (kind == "cdr"), 450_000)
    expect(f"capacity {blocks - blocks % unit} " in said.output, said)


def checked(room: Room, kind: str) -> None:
    """What udfburn_drive_check asks of a drive."""
    recorder = Recorder("CHECKED", kind)
    said = room.run(recorder, "mmc", "check")
    expect(said.output == "UDFBURN_OK \n" and recorder.synchronized == 8, said)
    said = room.run(recorder, "mmc", "check")
    expect(said.output == "UDFBURN_DEVICE the drive is not blank\n", said)
    said = room.run(Recorder("WRONG", kind, faults=Faults(read=300)), "mmc", "check")
    expect(said.output == "UDFBURN_DEVICE read did not give what was written\n", said)


def full(room: Room, kind: str) -> None:
    """A small disc takes files until there is no room, and stays sound."""
    # The last VAT ICB of a CD-R may come to lie in each of the last blocks.
    for blocks in range(600, 612) if kind == "cdr" else (700,):
        recorder = Recorder("FULL", kind, blocks)
        said = room.store(recorder, room.files(40))
        expect(said.status == 1 and "UDFBURN_FULL" in said.output and 5 < len(said.stored) < 40, said)
        expect(not said.errors and recorder.written() <= blocks, (said, recorder.written()))
        room.require(recorder, said.stored)


# ---- discs and drives that are refused

def refused(room: Room) -> None:
    closed, none, other = Recorder("CLOSED", "dvd+r"), Recorder("NONE", None), Recorder("OTHER", "bdr")
    room.store(closed, room.files(1))
    closed.closed = True
    other.data += b"o" * 64 * BLOCK
    for recorder, wanted in (
        (closed, f"UDFBURN_READ_ONLY READ DISC INFORMATION {errno.EROFS}\n"), (none, f"UDFBURN_DEVICE TEST UNIT READY {errno.ENOMEDIUM}\n"),
        (other, "UDFBURN_VOLUME  0\n"),
    ):
        before, said = bytes(recorder.data), room.run(recorder, "mmc", "open")
        expect(said.output == wanted and recorder.data == before, (wanted, said))
    said = room.store(other, room.files(1))
    expect(said.status == 1 and "UDFBURN_VOLUME" in said.errors and other.synchronized == 0, said)


def no_recorders(room: Room) -> None:
    """Other files, which get no command that changes them."""
    path = room.folder / "regular"
    path.write_bytes(b"x")
    for device, wanted in ((str(path), f"UDFBURN_DEVICE open {errno.ENODEV}\n"), (str(room.folder / "none"), f"UDFBURN_DEVICE open {errno.ENOENT}\n"),
                           (str(room.folder), f"UDFBURN_DEVICE open {errno.EISDIR}\n"), ("/dev/null", f"UDFBURN_DEVICE INQUIRY {errno.ENOTTY}\n")):
        said = subprocess.run([room.programs["mmc"], device, "open"], capture_output=True, text=True, check=False)
        expect(said.stdout == wanted, (device, said))
    expect(path.read_bytes() == b"x", "a file was written")


# ---- faults

def power(room: Room, kind: str) -> None:
    """Power is lost at chance commands, and what was in the drive's buffer with it. Each file that was stored by then is there afterwards."""
    recorder, stored, cut = Recorder(f"POWER-{kind}", kind), [], 0
    for _ in range(CUTS):
        # At any command, or at one that writes or synchronises.
        recorder.cut_at = room.chance.choice([(), WRITES])
        recorder.cut = room.chance.randint(0, 12 if recorder.cut_at else 60)
        said = room.store(recorder, room.files(4))
        cut += recorder.cut is None
        recorder.cut = None
        stored += said.stored
        if stored:
            room.require(recorder, stored)
    expect(cut >= CUTS // 2 and len(stored) >= CUTS // 2, (cut, len(stored)))
    expect(kind != "dvdr" or recorder.repairs > 0, "no track was damaged")
    rest = room.store(recorder, room.files(3))
    expect(rest.status == 0 and len(rest.stored) == 3, rest)
    room.require(recorder, stored + rest.stored)


def bad_write(room: Room, kind: str, spoils: bool) -> None:
    """A write fails once, at each of some addresses. The run goes on, unless what is spoiled has the anchor, or begins with it."""
    unit = KINDS[kind].unit
    for address in (*BAD, 256, 17):
        recorder = Recorder("BAD", kind, faults=Faults(write=address, once=True, spoils=spoils))
        files = room.files(26)
        said = room.store(recorder, files)
        expect(recorder.failed, f"{address} was not written")
        spoiled = set(range(address - address % unit, address - address % unit + unit)) if spoils else set()
        if kind == "cdr" and address < FORMAT_END:
            # The link after the packet that failed lies in the place of the blocks that follow.
            spoiled.update(range(address, address + 8))
        if spoiled & NEEDED:
            name = "anchor" if 256 in spoiled else "header"
            expect(said.status == 1 and not said.stored and f" ({name}: " in said.errors, (address, said))
            continue
        expect(said.status == 0 and len(said.stored) == 26, (address, said))
        in_format = address < -(-(FORMAT_END + COPIES) // unit) * unit
        expect(in_format or "(WRITE(10): 0x30c00)" in said.errors, (address, said))
        room.require(recorder, said.stored, 26)


def complaint(room: Room, kind: str, faults: Faults, reason: str) -> None:
    """A commit that fails is not acknowledged, and is there once after the next try."""
    recorder = Recorder("FAULT", kind, faults=faults)
    said = room.store(recorder, room.files(8))
    expect(said.status == 0 and len(said.stored) == 8 and f"UDFBURN_DEVICE ({reason}: " in said.errors, said)
    room.require(recorder, said.stored, 8)


def stuck(room: Room, kind: str) -> None:
    """What is only in the drive's buffer can be read, and is not on the medium: a repeat is not acknowledged by it."""
    recorder = Recorder("STUCK", kind, faults=Faults(stuck=4))
    said = room.store(recorder, room.files(8))
    expect(said.status == 1 and len(said.stored) == 2 and "(SYNCHRONIZE CACHE: 0x44400)" in said.errors, said)
    recorder.buffer.clear()
    room.require(recorder, said.stored, 2)


def wrong_bit(room: Room, kind: str) -> None:
    """A bit that is wrong on the medium: the packet is read back, so its file is not acknowledged, and the others are."""
    recorder = Recorder("FLIPS", kind, faults=Faults(flips=5))
    # The packet of this synchronisation begins with the blocks of its file.
    room.made += -(room.made + 4 - SIZES.index(40_000)) % len(SIZES)
    files = room.files(8)
    said = room.store(recorder, files)
    expect(said.status == 1 and len(said.stored) == 7 and "(drive.verify: " in said.errors, said)
    lost = next(path for path in files if str(path) not in said.stored)
    expect(f"UDFBURN_USED {lost}" in said.output, said)
    room.require(recorder, said.stored)


def reads(room: Room, kind: str) -> None:
    """A read that fails is no block of zeros: the volume would go back to an earlier commit. One that fails at the first try is tried again."""
    recorder = Recorder("READS", kind)
    stored, refused_runs = room.store(recorder, room.files(5)).stored, 0
    for number in range(1, 40, 3):
        recorder.reads, recorder.faults = 0, Faults(hardware=number)
        said = room.store(recorder, room.files(1))
        refused_runs += said.status != 0
        expect(said.status == 0 or "(READ(10): 0x40800)" in said.errors, said)
        stored += said.stored
        room.require(recorder, stored)
    expect(refused_runs > 0, "no run was refused")
    recorder.faults = Faults(flaky=True)
    said = room.store(recorder, room.files(2))
    expect(said.status == 0, said)
    room.require(recorder, stored + said.stored)


def slow(room: Room, kind: str) -> None:
    """A drive that is at work is asked again."""
    recorder = Recorder("SLOW", kind, faults=Faults(slow=6))
    said = room.store(recorder, room.files(2))
    expect(said.status == 0 and len(said.stored) == 2 and recorder.slow == 0, said)


# ---- the client

def tree_of(room: Room, name: str, count: int) -> Path:
    """A folder with new files."""
    folder = room.folder / name
    folder.mkdir()
    for path in room.files(count):
        path.rename(folder / path.name)
    return folder


def by_client(room: Room, kind: str) -> None:
    """The commands on a disc. Another disc in the same drive is another volume, and the first one is known again."""
    recorder, other, tree = Recorder(f"CLIENT-{kind}", kind), Recorder(f"OTHER-{kind}", kind), tree_of(room, f"tree-{kind}", 8)
    said = room.client(recorder, "ls", "/")
    expect(said.status == 1 and "the disc has no volume" in said.errors, said)
    expect(room.client(recorder, "format", "--label", "ONE").status == 0, "format")
    said = room.client(recorder, "put", "-r", str(tree), "/tree")
    expect(said.status == 0 and "stored 8 files" in said.output, said)
    synchronized = recorder.synchronized
    said = room.client(recorder, "put", "-r", str(tree), "/tree")
    expect(said.status == 0 and "8 were there" in said.output and recorder.synchronized == synchronized, said)
    expect(room.client(other, "format", "--label", "TWO").status == 0, "format")
    said = room.client(other, "put", "-r", str(tree), "/tree")
    expect(said.status == 0 and "stored 8 files" in said.output, said)
    said = room.client(recorder, "put", "-r", str(tree), "/tree")
    expect(said.status == 0 and "8 were there" in said.output, said)
    out = room.folder / f"out-{kind}"
    said = room.client(recorder, "get", "-r", "/tree", str(out))
    expect(said.status == 0, said)
    for path in tree.iterdir():
        expect((out / path.name).read_bytes() == path.read_bytes(), path)
    said = room.client(recorder, "verify", str(tree), "/tree")
    expect(said.status == 0, said)
    said = room.client(recorder, "format", "--label", "THREE")
    expect(said.status == 1 and "holds something already" in said.errors, said)
    recorder.closed = True
    said = room.client(recorder, "put", "-r", str(tree), "/again")
    expect(said.status == 1 and "the disc is closed" in said.errors, said)
    said = room.client(Recorder("NONE", None), "ls", "/")
    expect(said.status == 1 and "there is no disc in it" in said.errors, said)


def client_deletes(room: Room, kind: str) -> None:
    """Power is lost while sources are deleted as they are stored. What is not there any more is on the medium."""
    recorder, kept, gone = Recorder(f"DELETES-{kind}", kind), {}, 0
    expect(room.client(recorder, "format", "--label", "GONE").status == 0, "format")
    for turn in range(3):
        tree = tree_of(room, f"gone-{kind}-{turn}", 6)
        kept.update({path: path.read_bytes() for path in tree.iterdir()})
        recorder.cut_at, recorder.cut = WRITES, room.chance.randint(1, 9)
        room.client(recorder, "put", "-r", str(tree), f"/{turn}", "--delete-source", "--wait", "0")
        recorder.cut = None
        image = str(room.image_of(recorder))
        for path, data in kept.items():
            if not path.exists():
                gone += 1
                name = f"/{path.parent.name[-1]}/{path.name}"
                found = subprocess.run([room.udfburn, "get", image, name], capture_output=True, check=False)
                expect(found.returncode == 0 and found.stdout == data, f"{path} was deleted, and is not there: {found.stderr!r}")
    expect(gone > 0, "no source was deleted")


def client_faults(room: Room, kind: str) -> None:
    """A write that fails is tried again, after what it spoiled; an anchor that is spoiled is the end of the disc."""
    recorder, tree = Recorder("WORN", kind, faults=Faults(write=400, once=True, spoils=True)), tree_of(room, f"worn-{kind}", 16)
    expect(room.client(recorder, "format", "--label", "WORN").status == 0, "format")
    said = room.client(recorder, "put", "-r", str(tree), "/tree")
    expect(said.status == 0 and recorder.failed, said)
    expect(room.client(recorder, "verify", str(tree), "/tree").status == 0, "verify")
    flips = Recorder("FLIPS", kind, faults=Faults(flips=4))
    changed = room.folder / f"flips-{kind}"
    changed.mkdir()
    for at in range(6):
        (changed / str(at)).write_bytes(bytes([at + 1]) * 40_000)
    expect(room.client(flips, "format", "--label", "FLIPS").status == 0, "format")
    said = room.client(flips, "put", "-r", str(changed), "/flips", "--delete-source")
    expect(said.status == 1 and "the volume has other bytes than were stored" in said.errors, said)
    expect(len(list(changed.iterdir())) == 1, "a source is gone that is not on the disc")
    spoiled = Recorder("SPOILED", kind, faults=Faults(write=256, once=True, spoils=True))
    said = room.client(spoiled, "format", "--label", "WORN", "--moment", "7")
    expect(said.status == 1 and "WRITE(10) failed (sense 030c00)" in said.errors and "--moment 7" in said.errors, said)
    said = room.client(spoiled, "format", "--label", "WORN", "--moment", "7")
    expect(said.status == 1 and "take another one" in said.errors, said)


def client_reads(room: Room, kind: str) -> None:
    """A file with a block that cannot be read any more is not given with zeros in its place, and its source is not deleted, though it has
    zeros there. The other files are given."""
    recorder, tree, unit = Recorder(f"SCRATCHED-{kind}", kind), tree_of(room, f"scratched-{kind}", 0), KINDS[kind].unit
    (tree / "zeros").write_bytes(bytes(200_000) + b"end of zeros")
    (tree / "other").write_bytes(b"other" * 20_000)
    expect(room.client(recorder, "format", "--label", "SCRATCHED").status == 0, "format")
    expect(room.client(recorder, "put", "-r", str(tree), "/tree").status == 0, "put")
    at = recorder.data.index(b"end of zeros") // BLOCK - 2 * unit
    recorder.spoiled.update(range(at - at % unit, at - at % unit + unit))
    out = room.folder / f"out-scratched-{kind}"
    said = room.client(recorder, "get", "/tree/zeros", str(out), "--wait", "0")
    expect(said.status == 1 and not out.exists() and "the recorder fails, or its disc does" in said.errors, said)
    said = room.client(recorder, "put", "-r", str(tree), "/tree", "--delete-source", "--wait", "0")
    expect(said.status == 1 and (tree / "zeros").exists(), said)
    said = room.client(recorder, "get", "/tree/other", str(out))
    expect(said.status == 0 and out.read_bytes() == b"other" * 20_000, said)


def tests(room: Room) -> List[Tuple[str, Callable[[], None]]]:
    found: List[Tuple[str, Callable[[], None]]] = []
    for kind in KINDS:
        found += [
            (f"{kind}: 20 files and 5 more", partial(good, room, kind, Faults())),
            (f"{kind}: no last recorded address", partial(good, room, kind, Faults(no_last=True))),
            (f"{kind}: calls", partial(calls, room, kind)),
            (f"{kind}: the check of drives", partial(checked, room, kind)),
            (f"{kind}: full", partial(full, room, kind)),
            (f"{kind}: power is lost {CUTS} times", partial(power, room, kind)),
            (f"{kind}: writes that fail", partial(bad_write, room, kind, False)),
            (f"{kind}: writes that fail and spoil", partial(bad_write, room, kind, True)),
            (f"{kind}: a buffer that is lost", partial(complaint, room, kind, Faults(loses=4), "READ TRACK INFORMATION")),
            (f"{kind}: a reset", partial(complaint, room, kind, Faults(resets=4), "SYNCHRONIZE CACHE")),
            (f"{kind}: a synchronisation that fails", partial(complaint, room, kind, Faults(unsynchronized=4), "SYNCHRONIZE CACHE")),
            (f"{kind}: a buffer that stays", partial(stuck, room, kind)),
            (f"{kind}: a wrong bit", partial(wrong_bit, room, kind)),
            (f"{kind}: reads that fail", partial(reads, room, kind)),
            (f"{kind}: a slow drive", partial(slow, room, kind)),
        ]
    for kind in ("cdr", "dvdr"):
        found += [
            (f"{kind}: the client", partial(by_client, room, kind)),
            (f"{kind}: the client deletes sources, and power is lost", partial(client_deletes, room, kind)),
            (f"{kind}: the client and writes that fail", partial(client_faults, room, kind)),
            (f"{kind}: the client and blocks that cannot be read any more", partial(client_reads, room, kind)),
        ]
    found += [
        ("cdr: the last link is not counted", partial(good, room, "cdr", Faults(ends_early=True))),
        ("discs that are refused", partial(refused, room)),
        ("no recorders", partial(no_recorders, room)),
    ]
    return found


def main() -> int:
    udfburn, library, folder = os.path.realpath(sys.argv[1]), Path(sys.argv[2]).resolve(), Path(sys.argv[3]).resolve()
    room = Room(udfburn, library, folder)
    passed = failed = 0
    for name, test in tests(room):
        if len(sys.argv) > 4 and sys.argv[4] not in name:
            continue
        began = time.monotonic()
        try:
            test()
            passed += 1
            print(f"passed {name} {time.monotonic() - began:.1f} s", flush=True)
        except BaseException:
            failed += 1
            print(f"failed {name}: {traceback.format_exc()}", flush=True)
    print(f"{passed} passed, {failed} failed")
    return 1 if failed or not passed else 0


if __name__ == "__main__":
    sys.exit(main())
