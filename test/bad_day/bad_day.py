"""Damaged images with the real tools: whatever is intact comes out byte by byte, and what is not is named."""

from __future__ import annotations

import json
import os
import shutil
import subprocess
import sys
import traceback
from typing import Callable, Dict, List, NamedTuple, Optional, Tuple

HERE = os.path.dirname(os.path.abspath(__file__))
CLIENT = os.path.join(HERE, "..", "..", "clients", "python")
sys.path.insert(0, CLIENT)

from images import BLOCK, MANIFEST, Damage, Sound, damages, make, standing, with_entries  # noqa: E402

SEED = 42
BAD = ("damaged", "earlier", "nameless", "lost")


class Salvaged(NamedTuple):
    """What `salvage` did: its status, its lines of JSON, and the files that it wrote."""

    status: int
    lines: List[Dict[str, object]]
    files: Dict[str, bytes]


class Day:
    """The programs, the room, and how many tests passed and failed."""

    def __init__(self, program: str, room: str, library: Optional[str]):
        self.program, self.room, self.library = program, room, library
        self.passed = self.failed = 0

    def test(self, name: str, body: Callable[[], None]) -> None:
        """Runs one test."""
        try:
            body()
            self.passed += 1
        except Exception:  # noqa: BLE001
            self.failed += 1
            print(f"FAILED: {name}\n{traceback.format_exc()}")

    def path(self, name: str) -> str:
        """A path in the room."""
        return os.path.join(self.room, name)

    def write(self, name: str, data: bytes) -> str:
        """A file in the room."""
        with open(self.path(name), "wb") as file:
            file.write(data)
        return self.path(name)

    def run(self, words: List[str], unread: Tuple[int, ...] = (), image: str = "") -> "subprocess.CompletedProcess[bytes]":
        """Runs a program, for which blocks of an image cannot be read."""
        environment = {**os.environ, "PYTHONPATH": CLIENT}
        if unread:
            assert self.library is not None, "a C compiler is there"
            environment.update(LD_PRELOAD=self.library, UNREADABLE_FILE=os.path.realpath(image), UNREADABLE_BLOCKS=" ".join(map(str, unread)))
        return subprocess.run(words, capture_output=True, env=environment, check=False)

    def salvage(self, image: str, *words: str, unread: Tuple[int, ...] = ()) -> Salvaged:
        """Runs `salvage` into an empty folder. The image stays as it is."""
        folder = self.path("out")
        shutil.rmtree(folder, ignore_errors=True)
        with open(image, "rb") as file:
            before = file.read()
        done = self.run([sys.executable, "-m", "udfburn", "salvage", image, folder, "--json", *words], unread, image)
        with open(image, "rb") as file:
            assert file.read() == before, "the image was changed"
        assert done.returncode in (0, 1), done.stderr.decode()
        lines = [json.loads(line) for line in done.stdout.splitlines()]
        return Salvaged(done.returncode, lines, files_of(folder))


def files_of(folder: str) -> Dict[str, bytes]:
    """All files below a folder."""
    found = {}
    for at, _, names in os.walk(folder):
        for name in names:
            with open(os.path.join(at, name), "rb") as file:
                found[os.path.relpath(os.path.join(at, name), folder)] = file.read()
    return found


def compare(sound: Sound, damage: Damage, found: Salvaged) -> None:
    """Each intact file is there, each other one is named, and nothing that is wrong has the name of a whole file."""
    end = found.lines[-1]
    assert end["did"] == "salvage" and end["status"] == found.status, end
    wanted = sound.files[damage.commit]
    reports = {str(line["path"]): line for line in found.lines if line["did"] == "file"}
    states = {path: str(line["state"]) for path, line in reports.items()}
    whole, there = standing(sound, damage), set(found.files.values())
    is_cut, nameless = damage.commit < len(sound.files) - 1, 0
    # Without the digest of a file nobody knows how many bytes it had whose entry is lost, or that a byte of it changed.
    has_digests = MANIFEST in whole & with_entries(sound, damage)
    whole &= whole if has_digests else with_entries(sound, damage)
    for path, data in wanted.items():
        name = "/".join(path)
        state = states.get("/" + name, "")
        if is_cut or path in whole:
            # The manifest came last: where its commit is lost, the state is the one before.
            is_last = path == MANIFEST and end["commit"] == damage.commit - 1
            assert data in there or is_last, f"{name} stands, and did not come out: {reports.get('/' + name)}"
        elif found.files.get(name) != data:
            assert state in ("", *BAD, *([] if has_digests else ["unproved"])), f"{name} is damaged, and was not named: {reports.get('/' + name)}"
            nameless += state == ""
    # Where the listing is lost too, and the manifest that has the name, it is named by its block.
    lost = sum(path.startswith("/lost+found/") and state in BAD for path, state in states.items())
    assert nameless <= lost, f"{nameless} are damaged and have no name, and {lost} were named as such"
    for name, data in found.files.items():
        path = tuple(name.split("/"))
        if path in wanted and data != wanted[path] and states["/" + name] != "unproved":
            raise AssertionError(f"{name} has wrong bytes under its own name: {reports['/' + name]}")
    counts = {state: int(str(end[state])) for state in ("whole", "unproved", *BAD)}
    assert sum(counts.values()) == end["files"], counts
    assert found.status == 0 or end["structures"] or sum(counts.values()) > counts["whole"], end
    if found.status == 0:
        assert found.files == {"/".join(path): data for path, data in wanted.items()}, "status 0, and not all is there"


def damaged(day: Day, sound: Sound, damage: Damage) -> None:
    """One damaged copy. What cannot be read is read by `salvage` itself, and from what ddrescue made of it, with its map."""
    image = day.write("damaged.img", damage.image)
    compare(sound, damage, day.salvage(image, unread=damage.unread))
    if damage.unread:
        copy, rescue = day.path("copy.img"), day.path("copy.map")
        for path in (copy, rescue):
            if os.path.exists(path):
                os.unlink(path)
        done = day.run(["ddrescue", "-q", "-b2048", image, copy, rescue], damage.unread, image)
        assert done.returncode == 0 and os.path.getsize(copy) == len(sound.image), done.stderr.decode()
        compare(sound, damage, day.salvage(copy, "--map", rescue))


def sound_one(day: Day, sound: Sound) -> None:
    """The sound image gives all, and says so."""
    image = day.write("sound.img", sound.image)
    found = day.salvage(image)
    assert found.status == 0 and found.lines[-1]["structures"] == 0, found.lines[-1]
    assert found.files == {"/".join(path): data for path, data in sound.files[-1].items()}
    # The manifest too: each of its lines is that of a file with this digest.
    assert found.lines[-1]["whole"] == len(sound.files[-1]), found.lines[-1]


def every_commit(day: Day, sound: Sound) -> None:
    """Earlier states come out as they were."""
    image = day.write("sound.img", sound.image)
    for commit in (0, 3, 100, len(sound.files) - 2):
        found = day.salvage(image, "--at", str(commit))
        assert found.files == {"/".join(path): data for path, data in sound.files[commit].items()}, commit


def logged(day: Day, sound: Sound) -> None:
    """`log` prints what `udfburn log` does, and all the same lines where that refuses."""
    image = day.write("sound.img", sound.image)
    program = day.run([day.program, "log", image])
    client = day.run([sys.executable, "-m", "udfburn", "log", image])
    assert (client.returncode, client.stdout) == (0, program.stdout), client.stderr
    middle = sound.ends[len(sound.ends) // 2]
    broken = bytearray(sound.image)
    broken[middle * BLOCK + 100] ^= 1
    image = day.write("broken.img", bytes(broken))
    assert day.run([day.program, "log", image]).returncode == 1
    client = day.run([sys.executable, "-m", "udfburn", "log", image])
    lines = client.stdout.decode().splitlines()
    said = program.stdout.decode().splitlines()
    place = next(index for index, line in enumerate(said) if line.split()[1] == str(middle))
    assert client.returncode == 1 and lines[place].startswith(said[place] + " broken: "), lines[place]
    assert lines[:place] + lines[place + 1 :] == said[:place] + said[place + 1 :]


def mended(day: Day, sound: Sound, make_parity: List[str], mend: List[str], damage: bytes) -> None:
    """Parity that was made of the sound image mends a damaged one."""
    image = day.write("disc.img", sound.image)
    done = day.run([word.replace("@", image) for word in make_parity])
    assert done.returncode == 0, done.stderr.decode()
    day.write("disc.img", damage)
    day.run([word.replace("@", image) for word in mend])
    with open(image, "rb") as file:
        assert file.read() == sound.image, "it was not mended"
    assert day.run([day.program, "check", image]).returncode == 0


def main(program: str, room: str, library: str, seed: int) -> int:
    """Runs all of it."""
    day = Day(program, room, library if os.path.exists(library) else None)
    sound = make(program, day.path("made.img"), seed)
    day.test("the sound image", lambda: sound_one(day, sound))
    day.test("earlier commits", lambda: every_commit(day, sound))
    day.test("log", lambda: logged(day, sound))
    hurt = {}
    for number, damage in enumerate(damages(sound, seed)):
        hurt[damage.what] = damage.image
        day.test(f"image {number}: {damage.what}", lambda damage=damage: damaged(day, sound, damage))  # type: ignore[misc]
    # One that lost 20 blocks is within what either keeps.
    few = hurt["20 blocks"]
    day.test("par2", lambda: mended(day, sound, ["par2", "create", "-q", "-q", "-r5", "@.par2", "@"], ["par2", "repair", "-q", "-q", "@.par2"], few))
    ecc = ["dvdisaster", "-i", "@", "-e", "@.ecc"]
    day.test("dvdisaster", lambda: mended(day, sound, [*ecc, "-mRS01", "-n", "normal", "-c"], [*ecc, "-f"], few))
    print(f"bad_day: {day.passed} passed, {day.failed} failed")
    return 1 if day.failed else 0


if __name__ == "__main__":
    sys.exit(main(sys.argv[1], sys.argv[2], sys.argv[3], int(sys.argv[4]) if len(sys.argv) > 4 else SEED))
