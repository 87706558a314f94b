"""The volumes that the readers are tried on: lists of requests, and the images that the program makes of them."""

from __future__ import annotations

import random
import subprocess
import sys
from dataclasses import dataclass, field
from pathlib import Path
from typing import Callable, Dict, List, Optional, Tuple

sys.path.insert(0, str(Path(__file__).resolve().parent.parent.parent / "clients/python"))

from protocol import BLOCK, DONE, FRONT, Directory, File, Script, Tree  # noqa: E402
from tests.appended import MOMENT, Appender  # noqa: E402
from udfburn.reader.basics import ENTRY_DESCRIPTORS, EXTENT_BYTES  # noqa: E402

# Names of all kinds. Those of characters up to U+00FF are spelled with one byte each, others with two.
NAMES = (
    "a", "B", "readme.txt", ".hidden", "..more", "...", "two words", " leading", "trailing ", "dots...", "no.ext.",
    "\u00e4\u00f6\u00fc\u00df.txt", "\u00ff", "caf\u00e9", "\u0100", "\u20ac uro", "\u4e2d\u6587.txt", "\u03b1\u03b2\u03b3",
    "\u0440\u0443\u0441\u0441\u043a\u0438\u0439", "\ue000", "\ufffd", "line\nend", "tab\there", "bell\x07", "\x01",
    "back\\slash", "colon:star*?\"<>|", "'quotes'", "$(sh)", "`sh`", "-rf", "--", "~", "#", "#1234", "%41", "A", "b",
    "e\u0301", "\u00e9", "\x7f", "\u0080", "\u00a0", "CON", "nul.txt", "semi;1", "a" * 254, "\u4e2d" * 84,
    "z" * 250 + ".end", "\u00fc" * 100, "mixed \u00e9 and \u20ac",
)

# Names whose UTF-8 is longer than the 254 bytes that Linux shows: it cuts them, and puts a check of the name after.
LONG_NAMES = ("\u4e2d" * 127, "\u20ac" * 100, "\u00ff" * 254, "\u4e2d" * 120 + ".txt", "\u00e4" * 200 + ".jpeg")

# On both sides of a block, of what an entry holds, and at the greatest size of a file.
SIZES = (0, 1, 1871, 1872, 1873, 2047, 2048, 2049, 4095, 4096, 4097, 65_535, 65_536, 65_537, 1_048_575, 1_048_576)


@dataclass
class Volume:
    name: str
    script: Script
    image: Path
    # The tree after the last commit, and those after earlier ones by the address of their VAT ICB.
    tree: Tree
    earlier: List[Tuple[int, Tree]] = field(default_factory=list)
    # The blocks of a commit that was cut, after the last VAT ICB.
    behind: int = 0
    last: int = 0


def some_bytes(die: random.Random, size: int) -> bytes:
    return die.getrandbits(8 * size).to_bytes(size, "little") if size else b""


def names(script: Script) -> None:
    script.make(("d",))
    for at, name in enumerate(NAMES):
        script.create(("d", name), name.encode())
        if at % 3 == 0:
            script.make((name,))
            script.create((name, name), b"within " + name.encode())
    script.keep()


def long_names(script: Script) -> None:
    for name in LONG_NAMES:
        script.create((name,), name.encode())


def sizes(script: Script) -> None:
    die = random.Random(1)
    for size in SIZES:
        script.create(("%d" % size,), some_bytes(die, size))
    script.create(("zeros",), bytes(5000))
    script.create(("again",), b"small")
    script.keep()
    for size in (0, 1873, 1872, 70_000):
        script.replace(("again",), some_bytes(die, size))
        script.keep()
    # Moments at both ends, and parts of a second.
    for moment in (0, 1, 999_999, 951_782_400_000_000, 4_102_444_799_999_999):
        script.create(("at %d" % moment,), b"x", moment=moment)


def deep(script: Script, letter: str = "s", length: int = 1) -> None:
    for letter, length in ((letter, length), ("\u00e9", 30)):
        path: Tuple[str, ...] = ()
        for at in range(15):
            path += ("%s%x" % (letter * (length - 1), at),)
            script.make(path)
            script.create(path[:-1] + ("beside %d" % at,), b"%d" % at)
        script.create(path + ("last",), b"the sixteenth name")
        assert script.create(path + ("dir",)) == DONE
        assert script.create(path + ("last", "no")) != DONE
    script.keep()


def deepest(script: Script) -> None:
    """Sixteen names of 254 letters, so that a path is longer than the system takes in one word."""
    deep(script, "n", 254)


def wide(script: Script) -> None:
    for folder, form in (("short", "%d"), ("long", "%0254d"), ("two", "%d\u20ac")):
        script.make((folder,))
        for at in range(512):
            script.create((folder, form % at), b"" if at % 2 else b"%d" % at)
        assert script.create((folder, "more")) != DONE
        script.keep()
        # Each third name goes, so that identifiers move between the blocks.
        for at in range(0, 512, 3):
            script.remove((folder, form % at))
        script.make((folder, "made"))
        script.keep()


def clients(script: Script) -> None:
    """As many clients as Linux reads: one more, and the table's head is longer than a block."""
    for turn in range(5):
        for client in range(1, 39):
            script.client = client * 1_000_003
            if turn == 0:
                script.create(("client %d" % client,), b"%d" % client)
            else:
                script.replace(("client %d" % client,), b"%d %d" % (client, turn))
        script.keep()


def all_clients(script: Script) -> None:
    """As many clients as a volume keeps: the table's head is longer than a block, which Linux does not read."""
    for client in range(1, 65):
        script.client = 2**64 - client
        script.create(("client %d" % client,), b"%d" % client)


def full(script: Script) -> None:
    """4,096 nodes."""
    for folder in range(124):
        script.make(("%d" % folder,))
        for at in range(32):
            script.create(("%d" % folder, "file %d of %d" % (at, folder)), b"%d %d" % (folder, at))
        if folder % 40 == 0:
            script.keep()
    for name in ("x", "y", "z"):
        script.make((name,))
    assert script.tree.nodes == 4096
    assert script.make(("no",)) != DONE


def die(script: Script) -> None:
    """Requests of all kinds as a die falls, most of which go through."""
    cast = random.Random(23)
    for turn in range(300):
        script.client = cast.choice((1, 2, 2**64 - 1))
        paths = [path for path, _ in script.tree.walk() if path]
        folders = [path for path, node in script.tree.walk() if isinstance(node, Directory)]
        what = cast.randrange(10)
        new = cast.choice(folders) + (cast.choice(("n%d", "\u00f1%d", "\u20ac%d")) % turn,)
        if what < 3 or not paths:
            script.create(new, some_bytes(cast, cast.choice((0, 3, 1000, 1872, 1873, 6000, 40_000))))
        elif what < 5:
            script.make(new)
        elif what < 7:
            script.replace(cast.choice(paths), some_bytes(cast, cast.choice((0, 10, 3000))))
        elif what < 9:
            script.move(cast.choice(paths), cast.choice(folders) + ("m%d" % turn,))
        else:
            script.remove(cast.choice(paths))
        if turn % 4 == 0:
            script.keep()


@dataclass
class Plan:
    name: str
    label: str
    fill: Callable[[Script], None]


PLANS = (
    Plan("names", "N\u00e4mes", names), Plan("longnames", "\u9577\u3044 names", long_names), Plan("sizes", "SIZES", sizes),
    Plan("deep", "deep", deep), Plan("deepest", "two words", deepest), Plan("wide", "L" * 29, wide),
    Plan("clients", "\u20ac", clients), Plan("allclients", "64 clients", all_clients),
    Plan("full", "full", full), Plan("die", "A die, as it falls", die),
)


class Maker:
    """Makes images by the program, and holds its answers against those that the requests ask for."""

    def __init__(self, udfburn: str, room: Path) -> None:
        self.udfburn = udfburn
        self.room = room

    def run(self, *words: str, given: bytes = b"") -> bytes:
        done = subprocess.run([self.udfburn, *words], input=given, stdout=subprocess.PIPE, stderr=subprocess.PIPE, timeout=3600)
        if done.returncode != 0:
            raise RuntimeError("%s: status %d: %r" % (" ".join(words), done.returncode, done.stderr))
        return done.stdout

    def format(self, image: Path, script: Script) -> None:
        image.unlink(missing_ok=True)
        self.run("format", str(image), script.label, str(script.moment), str(script.capacity))

    def apply(self, image: Path, script: Script, first: int = 0, past: Optional[int] = None) -> None:
        given = b"".join(script.frames[first:past])
        answers = self.run("apply", str(image), given=given)
        if answers != b"".join(script.wanted[first:past]):
            raise RuntimeError("%s: the answers are not those of the requests" % image.name)

    def addresses(self, image: Path) -> Dict[int, int]:
        """The address of the VAT ICB of each commit."""
        out = {}
        for line in self.run("log", str(image)).decode().splitlines():
            commit, address, _, _ = map(int, line.split())
            out[commit] = address
        return out

    def volume(self, plan: Plan) -> Volume:
        script = Script(plan.label, moment=1_000_000_000_123_456, step=86_461_234_567)
        plan.fill(script)
        image = self.room / (plan.name + ".img")
        self.format(image, script)
        self.apply(image, script)
        volume = Volume(plan.name, script, image, script.tree)
        addresses = self.addresses(image)
        if sorted(addresses) != list(range(script.commits + 1)):
            raise RuntimeError("%s: the log has other commits" % plan.name)
        volume.last = addresses[script.commits]
        kept = sorted(commit for commit in script.kept if commit < script.commits)
        for commit in kept:
            volume.earlier.append((addresses[commit], script.kept[commit]))
        empty = Tree(script.moment)
        volume.earlier.append((addresses[0], empty))
        return volume

    def cut(self) -> List[Volume]:
        """Volumes whose last commit was cut after each of its blocks, and ones that went on after such cuts."""
        out = []
        script = Script("\u00ff" * 30, moment=5)
        script.make(("d",))
        script.create(("d", "kept"), b"kept" * 1000)
        before = script.tree.copy()
        done = script.commits
        script.create(("d", "lost"), b"lost" * 1500)
        script.move(("d", "kept"), ("moved",))
        whole = self.room / "whole.img"
        self.format(whole, script)
        self.apply(whole, script, 0, done)
        held = whole.read_bytes()
        self.apply(whole, script, done, done + 1)
        written = whole.read_bytes()
        first, past = len(held) // BLOCK, len(written) // BLOCK
        for behind in range(1, past - first):
            image = self.room / ("cut%d.img" % behind)
            image.write_bytes(written[: (first + behind) * BLOCK])
            out.append(Volume("cut%d" % behind, script, image, before, [], behind, first - 1))
        # The last cut, and one inside a block; then the requests come again, and more.
        image = self.room / "again.img"
        image.write_bytes(written[: (past - 1) * BLOCK - 700])
        self.apply(image, script, done)
        volume = Volume("again", script, image, script.tree)
        addresses = self.addresses(image)
        volume.last = addresses[script.commits]
        volume.earlier.append((addresses[done], before))
        out.append(volume)
        return out

    def nested(self) -> Volume:
        """Files of the bytes of a volume of the same kind, and of VAT ICBs for the places where data would go."""
        script = Script("NESTED")
        inner = self.room / "inner.img"
        self.format(inner, Script("INNER"))
        script.create(("a volume",), inner.read_bytes())
        image = self.room / "nested.img"
        self.format(image, script)
        self.apply(image, script)
        done = script.commits
        entry = image.read_bytes()[-BLOCK:]
        # A VAT ICB for each place of a run of them: wherever the file would begin, one block imitates its place.
        start = image.stat().st_size // BLOCK - FRONT
        script.create(("tables",), b"".join(sealed(entry, start + 2 * at) for at in range(40)))
        self.apply(image, script, done)
        volume = Volume("nested", script, image, script.tree)
        volume.last = self.addresses(image)[script.commits]
        return volume


    def appended(self) -> Volume:
        """Files of 2, 3 and 117 extents, as appends leave them."""
        script = Script("APPENDED", capacity=66_000)
        image = self.room / "appended.img"
        self.format(image, script)
        cast, tree, earlier = random.Random(11), Tree(MOMENT), []
        appender = Appender(str(image))
        for name, size in (("two", EXTENT_BYTES + 1), ("three", 3 * EXTENT_BYTES), ("117", ENTRY_DESCRIPTORS * EXTENT_BYTES - 777)):
            data = some_bytes(cast, size)
            appender.file(name, data)
            tree.root.names[name] = File(data, MOMENT)
            tree.nodes += 1
            earlier.append((appender.previous + FRONT, tree.copy()))
        appender.write()
        return Volume("appended", script, image, tree, earlier[:1], 0, earlier[-1][0])

    def descriptors(self) -> Volume:
        """Files whose entries lead on to one descriptor block, to a full one, and to two. So that the image stays small, their extents lie
        over one another, and each begins at another block."""
        script = Script("DESCRIPTORS", capacity=66_000)
        image = self.room / "descriptors.img"
        self.format(image, script)
        cast, tree = random.Random(118), Tree(MOMENT)
        appender = Appender(str(image))
        shared = some_bytes(cast, 3 * EXTENT_BYTES)
        first = appender.put(shared)
        for count in (118, 242, 243):
            places = [cast.randrange(1024) for _ in range(count)]
            size = (count - 1) * EXTENT_BYTES + 4096 + count
            appender.create(str(count), b"x")
            appender.extents(str(count), size, [first + place for place in places])
            appender.commit_table()
            pieces = [shared[place * BLOCK : place * BLOCK + EXTENT_BYTES] for place in places]
            tree.root.names[str(count)] = File(b"".join(pieces)[:size], MOMENT)
            tree.nodes += 1
        appender.write()
        return Volume("descriptors", script, image, tree, [], 0, appender.previous + FRONT)


def sealed(block: bytes, location: int) -> bytes:
    """The descriptor of a block for another place: its location, and the checksum of its tag. The CRC leaves these out."""
    tag = bytearray(block[:16])
    tag[12:16] = location.to_bytes(4, "little")
    tag[4] = 0
    tag[4] = sum(tag) % 256
    return bytes(tag) + block[16:]
