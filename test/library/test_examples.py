"""The programs of examples/ on the library: what they do, also when they are killed and when calls of the system fail."""
from __future__ import annotations

import os
import pty
import random
import re
import shutil
import signal
import subprocess
import sys
import tty
import unittest
from pathlib import Path
from threading import Timer
from typing import Dict, List, Optional, Tuple

from faults.log import read_log
from faults.processes import await_true, state_of
from library.building import PATIENCE, REPOSITORY, Case, built

sys.path.insert(0, str(REPOSITORY / "clients" / "python"))

from udfburn.reader import FileType, Medium, Volume  # noqa: E402

PIECE = 1 << 20
"""Bytes by which a recording grows (examples/record.c)."""
PROGRAMS: Dict[str, Tuple[str, ...]] = {"record": (), "author": (), "recorder": ("-lburn",), "packet": ()}
"""The examples, and what each is linked with beside the library. test/disc.sh runs `packet`."""
SHIM = "shim.so"


def setUpModule() -> None:  # noqa: N802
    """Builds the examples as their heads say, and the library by which calls of the system fail."""
    where, library = examples(), built().plain
    where.mkdir()
    for name, others in PROGRAMS.items():
        subprocess.run(
            ["cc", "-std=c99", "-Wall", "-Wextra", "-Werror", "-pedantic", f"-I{library}", str(REPOSITORY / "examples" / f"{name}.c"),
             str(library / "libudfburn_drive.a"), "-pthread", *others, "-o", str(where / name)], check=True,
        )
    subprocess.run(["cc", "-shared", "-fPIC", "-O2", str(REPOSITORY / "test/faults/shim.c"), "-o", str(where / SHIM), "-ldl"], check=True)


def tearDownModule() -> None:  # noqa: N802
    shutil.rmtree(examples())


def examples() -> Path:
    """Where they are built."""
    return built().room / "examples"


class WithImage(Case):
    """A folder with an image."""

    def setUp(self) -> None:
        super().setUp()
        self.image = str(self.folder / "disc.img")

    def format(self, capacity: int = 10000) -> None:
        self.run_udfburn("format", "disc.img", "TEST", "0", str(capacity))

    def run_udfburn(self, *words: str) -> bytes:
        done = self.udfburn(*words)
        self.assertEqual(done.returncode, 0, done.stderr)
        return done.stdout

    def commits(self) -> int:
        """How many commits the volume has, each of which `check` finds sound."""
        word, count = self.run_udfburn("check", "disc.img").split()
        self.assertEqual(word, b"sound")
        return int(count)

    def run_example(self, *words: str, data: bytes = b"", rules: str = "", log: str = "") -> "subprocess.CompletedProcess[bytes]":
        """Runs an example, where calls of the system on the image fail by rules of test/faults/shim.c, and are logged."""
        faults = {"LD_PRELOAD": str(examples() / SHIM), "FAULT_IMAGE": "disc.img", "FAULT_RULES": rules} if rules else {}
        if log:
            faults["FAULT_LOG"] = log
        return subprocess.run(
            [str(examples() / words[0]), *words[1:]], cwd=self.folder, input=data, capture_output=True, check=False,
            timeout=PATIENCE, env=self.environment(**faults),
        )


def bytes_read_by(process: int) -> int:
    """How many bytes a process has been given by calls that read."""
    with open(f"/proc/{process}/io", encoding="ascii") as file:
        return next(int(line.split()[1]) for line in file if line.startswith("rchar:"))


def tree_of(image: str) -> Dict[str, Optional[bytes]]:
    """What the client's own reader finds: the bytes of each file by its path, and None for a directory."""
    with Medium(image) as medium:
        volume = Volume(medium)
        nodes = [node for node in volume.state().walk() if node.path]
        return {"/".join(node.path): None if node.kind is FileType.DIRECTORY else volume.read(node).data for node in nodes}


class Record(WithImage):
    """Recordings: whatever happens, each byte is on the volume once, and each piece by one commit."""

    def setUp(self) -> None:
        super().setUp()
        self.format()
        self.stream = random.Random(1).randbytes(2 * PIECE + 1000)

    def record(self, stream: bytes, at: int, rules: str = "") -> "subprocess.CompletedProcess[bytes]":
        return self.run_example("record", "disc.img", "talk", data=stream[at:], rules=rules)

    def on_volume(self) -> int:
        """How many bytes the volume has, as `record` reports at its start."""
        done = self.record(b"", 0)
        self.assertEqual((done.returncode, done.stderr), (0, b""))
        return int(done.stdout)

    def check_recorded(self, stream: bytes, why: str = "") -> None:
        tree = tree_of(self.image)
        self.assertEqual(list(tree), ["talk"], why)
        self.assertTrue(tree["talk"] == stream, why)
        self.assertEqual(self.commits(), -(-len(stream) // PIECE), why)

    def test_a_stream(self) -> None:
        done = self.record(self.stream, 0)
        self.assertEqual(done.stdout.split(), [b"%d" % size for size in (0, PIECE, 2 * PIECE, len(self.stream))])
        self.check_recorded(self.stream)

    def test_an_output_that_is_full(self) -> None:
        """All is on the volume, and that nobody could read so is a failure."""
        with open("/dev/full", "wb") as full:
            done = subprocess.run([str(examples() / "record"), "disc.img", "talk"], cwd=self.folder, input=self.stream, stdout=full,
                                  stderr=subprocess.PIPE, timeout=PATIENCE, env=self.environment())
        self.assertEqual((done.returncode, done.stderr), (1, b"record: the output cannot be written\n"))
        self.check_recorded(self.stream)

    def test_it_goes_on(self) -> None:
        self.record(self.stream[:PIECE], 0)
        self.assertEqual(self.on_volume(), PIECE)
        self.record(self.stream, PIECE)
        self.check_recorded(self.stream)

    def test_nothing_is_recorded_behind_an_end(self) -> None:
        """Neither the recording nor the number of commits changes."""
        self.record(self.stream, 0)
        for more in (b"more", bytes(PIECE)):
            done = self.record(more, 0)
            self.assertEqual((done.returncode, done.stdout, done.stderr),
                             (1, b"%d\n" % len(self.stream), b"record: /talk takes no more: record the rest under another name\n"))
            self.check_recorded(self.stream)

    def test_a_stream_that_cannot_be_read(self) -> None:
        """What comes before the failure is no end: only whole pieces are stored, and the rest is recorded afterwards."""
        mouth, ear = pty.openpty()
        tty.setraw(ear)
        with subprocess.Popen([str(examples() / "record"), "disc.img", "talk"], cwd=self.folder, stdin=ear, stdout=subprocess.PIPE,
                              stderr=subprocess.PIPE) as process:
            os.close(ear)
            assert process.stdout
            self.assertEqual(process.stdout.readline(), b"0\n")
            before = bytes_read_by(process.pid)
            os.write(mouth, self.stream[:1000])
            # A terminal that is gone gives EIO to who waits for it, and an end to who comes later.
            self.assertTrue(await_true(lambda: bytes_read_by(process.pid) >= before + 1000 and state_of(process.pid) == "S"))
            os.close(mouth)
            output, errors = process.communicate(timeout=PATIENCE)
        self.assertEqual((process.returncode, output, errors), (1, b"", b"record: the stream: Input/output error\n"))
        self.assertEqual(self.on_volume(), 0)
        self.record(self.stream, 0)
        self.check_recorded(self.stream)

    def test_long_names(self) -> None:
        """The longest name that a volume takes is recorded; a longer one is refused before the stream is read."""
        name = "n" * 254
        done = self.run_example("record", "disc.img", name, data=b"one")
        self.assertEqual((done.returncode, done.stdout.split(), done.stderr), (0, [b"0", b"3"], b""))
        self.assertEqual(tree_of(self.image), {name: b"one"})
        for name in ("n" * 255, "/n" * 150):
            done = self.run_example("record", "disc.img", name, data=b"one")
            self.assertEqual((done.returncode, done.stdout), (2, b""))

    def test_a_long_recording(self) -> None:
        """More pieces than the entry of its file can list, up to the end of the medium."""
        self.start_anew(64000)
        stream = random.Random(4).randbytes(1 << 16) * (130 << 4)
        done = self.record(stream, 0)
        self.assertEqual((done.returncode, done.stderr), (1, b"record: UDFBURN_FULL\n"))
        stored = int(done.stdout.split()[-1])
        self.assertGreater(stored, 120 * PIECE)
        self.check_recorded(stream[:stored])

    def test_killed_at_each_call(self) -> None:
        """The process is killed before and after each write and sync of the image, and what is left is recorded then."""
        for call, killed in (("pwrite", "K"), ("pwrite", "P1000K"), ("pwrite", "k"), ("fsync", "K"), ("fsync", "k")):
            count = self.calls(call)
            self.assertGreater(count, 0)
            for number in range(1, count + 1):
                self.start_anew()
                done = self.record(self.stream, 0, f"{call}:{number}:{killed}")
                why = f"{call} {number} of {count}: {killed}"
                self.assertEqual(done.returncode, -signal.SIGKILL, why)
                self.goes_on(done, why)

    def test_each_call_fails_once(self) -> None:
        """A call that fails does not end the recording: the part is sent again, and is there once."""
        for call, failing in (("pwrite", "E5"), ("pwrite", "P1000E5"), ("fsync", "E5"), ("fsync", "A5")):
            # A volume that cannot be opened is another failure: nothing was sent.
            begun = self.calls(call, b"")
            for number in range(begun + 1, self.calls(call) + 1):
                self.start_anew()
                done = self.record(self.stream, 0, f"{call}:{number}:{failing}")
                self.assertEqual((done.returncode, done.stderr), (0, b""), f"{call} {number}: {failing}")
                self.check_recorded(self.stream, f"{call} {number}: {failing}")

    def test_a_commit_that_seems_to_fail(self) -> None:
        """The last sync of a part is done, the disk says that it failed, and the part cannot be cut off again."""
        opened = self.calls("ftruncate", b"")
        for number in range(self.calls("fsync", b"") + 1, self.calls("fsync") + 1):
            self.start_anew()
            done = self.record(self.stream, 0, f"fsync:{number}:A5;ftruncate:{opened + 1}:E5")
            self.assertEqual((done.returncode, done.stderr), (0, b""), number)
            self.check_recorded(self.stream, f"sync {number}")

    def test_a_disk_that_fails_for_good(self) -> None:
        for first in range(2, self.calls("fsync") + 1):
            self.start_anew()
            done = self.record(self.stream, 0, f"fsync:{first}+:E5")
            self.assertEqual((done.returncode, done.stderr), (1, b"record: UDFBURN_DEVICE\n"), first)
            self.goes_on(done, f"from sync {first} on")

    def test_killed_by_the_clock(self) -> None:
        stream, chance, acknowledged, kills, longest = random.Random(2).randbytes(15 * PIECE + 5), random.Random(3), 0, 0, 0.05
        while acknowledged < len(stream):
            found = self.on_volume()
            self.assertGreaterEqual(found, acknowledged)
            with subprocess.Popen([str(examples() / "record"), "disc.img", "talk"], cwd=self.folder, stdin=subprocess.PIPE, stdout=subprocess.PIPE) as process:
                timer = Timer(chance.uniform(0.0, longest), process.kill)
                timer.start()
                output, _ = process.communicate(stream[found:])
                timer.cancel()
            kills += process.returncode == -signal.SIGKILL
            came = max([acknowledged, *map(int, output.split(b"\n")[:-1])])
            # However slow the machine is, there is time for a piece at last.
            longest *= 1.0 if came > acknowledged else 1.1
            acknowledged = came
        self.check_recorded(stream)
        self.assertGreater(kills, 0)

    def test_a_held_image(self) -> None:
        with subprocess.Popen([str(examples() / "record"), "disc.img", "talk"], cwd=self.folder, stdin=subprocess.PIPE, stdout=subprocess.PIPE) as process:
            assert process.stdin and process.stdout
            self.assertEqual(process.stdout.readline(), b"0\n")
            done = self.record(self.stream, 0)
            self.assertEqual((done.returncode, done.stdout, done.stderr), (1, b"", b"record: UDFBURN_BUSY\n"))
            process.communicate(b"")

    def start_anew(self, capacity: int = 10000) -> None:
        os.unlink(self.image)
        self.format(capacity)

    def calls(self, call: str, stream: Optional[bytes] = None) -> int:
        """How many such calls a recording makes on its image."""
        log = str(self.folder / "log")
        self.start_anew()
        Path(log).unlink(missing_ok=True)
        self.run_example("record", "disc.img", "talk", data=self.stream if stream is None else stream, rules=f"{call}:9999:E5", log=log)
        records = read_log(Path(log))
        self.assertGreater(len(records), 0)
        return sum(record.kind == call for record in records)

    def goes_on(self, ended: "subprocess.CompletedProcess[bytes]", why: str) -> None:
        """What was acknowledged is there, and the rest is recorded."""
        found = self.on_volume()
        self.assertGreaterEqual(found, int((ended.stdout.split() or [b"0"])[-1]), why)
        self.record(self.stream, found)
        self.check_recorded(self.stream, why)


class Author(WithImage):
    """A folder on a new volume."""

    def setUp(self) -> None:
        super().setUp()
        self.source = self.folder / "folder"
        self.wanted: Dict[str, Optional[bytes]] = {}
        self.source.mkdir()

    def write(self, path: str, data: Optional[bytes]) -> None:
        if data is None:
            (self.source / path).mkdir()
        else:
            (self.source / path).write_bytes(data)
        self.wanted[path] = data

    def test_a_folder(self) -> None:
        self.write("b", random.Random(4).randbytes(1 << 20))
        self.write("a", b"")
        self.write("d", None)
        self.write("d/\u00e4\u20ac", b"x" * 2049)
        self.write("d/empty", None)
        os.utime(self.source / "a", ns=(0, 1_234_567_891_234_567_000))
        done = self.run_example("author", "disc.img", "LABEL", "folder")
        self.assertEqual((done.returncode, done.stderr), (0, b""))
        self.assertEqual(tree_of(self.image), self.wanted)
        self.assertEqual(self.commits(), len(self.wanted))
        with Medium(self.image) as medium:
            volume = Volume(medium)
            moments = {"/".join(node.path): node.moment for node in volume.state().walk()}
            self.assertEqual((volume.label, volume.capacity), ("LABEL", 359844))
        self.assertEqual(moments["a"], 1_234_567_891_234_567)

    def test_what_cannot_be_stored(self) -> None:
        """The rest is stored, each failure has a line, and the status says it."""
        self.write("good", b"good")
        (self.source / "large").write_bytes(bytes((1 << 20) + 1))
        (self.source / "link").symlink_to("good")
        (self.source / "\U0001f600").write_bytes(b"")
        done = self.run_example("author", "disc.img", "LABEL", "folder")
        self.assertEqual(done.returncode, 1)
        lines = done.stderr.decode().splitlines()
        self.assertEqual(lines, [
            "author: folder/large: has more than a mebibyte", "author: folder/link: is neither a file nor a folder",
            "author: /\U0001f600: UDFBURN_TEXT",
        ])
        self.assertEqual(tree_of(self.image), self.wanted)

    def test_a_volume_that_is_there_stays(self) -> None:
        self.write("a", b"a")
        self.run_example("author", "disc.img", "LABEL", "folder")
        before = Path(self.image).read_bytes()
        done = self.run_example("author", "disc.img", "LABEL", "folder")
        self.assertEqual((done.returncode, done.stderr), (1, b"author: disc.img: UDFBURN_VOLUME\n"))
        self.assertEqual(Path(self.image).read_bytes(), before)


class Recorder(WithImage):
    """A drive of libburn's."""

    def recorder(self, *files: str, status: int = 0) -> List[str]:
        done = self.run_example("recorder", f"stdio:{self.image}", "3000", "REC", *files)
        self.assertEqual(done.returncode, status, done.stderr)
        return done.stdout.decode().splitlines()

    def test_files(self) -> None:
        data = random.Random(5).randbytes(300_000)
        (self.folder / "large").write_bytes(data)
        (self.folder / "small").write_bytes(b"small")
        self.assertEqual(self.recorder("large", "small"), ["stored large", "stored small"])
        self.assertEqual(tree_of(self.image), {"large": data, "small": b"small"})
        self.assertEqual(self.commits(), 2)
        self.assertEqual(self.recorder("small", status=1), ["UDFBURN_EXISTS small"])
        self.assertEqual(self.commits(), 3)

    def test_each_block_is_written_once(self) -> None:
        (self.folder / "small").write_bytes(b"small")
        self.recorder("small")
        before = Path(self.image).read_bytes()
        os.rename(self.folder / "small", self.folder / "other")
        self.recorder("other")
        self.assertEqual(Path(self.image).read_bytes()[:len(before)], before)

    def test_a_format_that_is_interrupted(self) -> None:
        """The next call finishes it, wherever the medium ends."""
        (self.folder / "small").write_bytes(b"small")
        self.recorder("small")
        whole = Path(self.image).read_bytes()
        for blocks in (1, 100, 261):
            Path(self.image).write_bytes(whole[:blocks * 2048])
            self.assertEqual(self.recorder("small"), ["stored small"])
            self.assertEqual(tree_of(self.image), {"small": b"small"})
            self.assertEqual(Path(self.image).read_bytes()[:262 * 2048], whole[:262 * 2048])

    def test_a_medium_that_holds_something_else(self) -> None:
        (self.folder / "small").write_bytes(b"small")
        Path(self.image).write_bytes(b"e" * 4096)
        self.recorder("small", status=1)
        self.assertEqual(Path(self.image).read_bytes(), b"e" * 4096)

    def test_a_full_drive(self) -> None:
        """A file for which there is no room is no commit, and a smaller one is stored after it."""
        for name in "abcdef":
            (self.folder / name).write_bytes(bytes(1 << 20))
        (self.folder / "small").write_bytes(b"small")
        lines = self.recorder(*"abcdef", "small", status=1)
        self.assertEqual(lines[0], "stored a")
        self.assertEqual(lines[-2:], ["UDFBURN_FULL f", "stored small"])
        self.assertEqual(self.commits(), sum(line.startswith("stored ") for line in lines))
        self.assertLessEqual(os.path.getsize(self.image), 3000 * 2048)


class Document(WithImage):
    """The program that docs/EMBEDDING.md shows."""

    def setUp(self) -> None:
        super().setUp()
        text = (REPOSITORY / "docs" / "EMBEDDING.md").read_text(encoding="utf-8")
        found = re.search(r"^```c\n(.*?)^```$", text, re.MULTILINE | re.DOTALL)
        assert found
        self.source = found[1]
        source = self.folder / "recorder.c"
        source.write_text(self.source, encoding="utf-8")
        library = built().plain
        subprocess.run(
            ["cc", "-std=c99", "-Wall", "-Wextra", "-Werror", "-pedantic", f"-I{library}", str(source), str(library / "libudfburn.a"), "-o", str(self.folder / "shown")],
            check=True,
        )

    def shown(self, path: str, data: bytes, rules: str = "") -> Tuple[int, bytes]:
        faults = {"LD_PRELOAD": str(examples() / SHIM), "FAULT_IMAGE": "disc.img", "FAULT_RULES": rules} if rules else {}
        done = subprocess.run(
            ["./shown", "disc.img", path], cwd=self.folder, input=data, capture_output=True, check=False, timeout=PATIENCE, env=self.environment(**faults),
        )
        self.assertEqual(done.stderr, b"")
        return done.returncode, done.stdout

    def test_forty_lines(self) -> None:
        self.assertLessEqual(len(self.source.splitlines()), 40)

    def test_a_recorder(self) -> None:
        self.assertEqual(self.shown("/a", b"first"), (0, b"stored\n"))
        self.assertEqual(self.shown("/b", bytes(1 << 20)), (0, b"stored\n"))
        self.assertEqual(self.shown("/a", b"other"), (1, b"UDFBURN_EXISTS\n"))
        self.assertEqual(self.shown("/c", bytes((1 << 20) + 1)), (1, b"UDFBURN_ARGUMENT\n"))
        self.assertEqual(tree_of(self.image), {"a": b"first", "b": bytes(1 << 20)})

    def test_a_commit_that_seems_to_fail(self) -> None:
        """It is sent again, and is there once."""
        self.assertEqual(self.shown("/a", b"a"), (0, b"stored\n"))
        for number in range(1, 5):
            path = f"/{number}"
            self.assertEqual(self.shown(path, b"b", f"fsync:{number}:A5;ftruncate:2:E5"), (0, b"stored\n"))
        self.assertEqual(tree_of(self.image), {"a": b"a", **{str(number): b"b" for number in range(1, 5)}})
        self.assertEqual(self.commits(), 5)

    def test_a_format_that_is_interrupted(self) -> None:
        """The next call finishes it."""
        for rules in ("pwrite:1:K", "pwrite:1:P1000K", "pwrite:1:k", "pwrite:2:K", "pwrite:2:P1000K", "pwrite:2:k", "fsync:3:K"):
            Path(self.image).unlink(missing_ok=True)
            faults = {"LD_PRELOAD": str(examples() / SHIM), "FAULT_IMAGE": "disc.img", "FAULT_RULES": rules}
            killed = subprocess.run(["./shown", "disc.img", "/a"], cwd=self.folder, input=b"a", check=False, env=self.environment(**faults))
            self.assertEqual(killed.returncode, -signal.SIGKILL, rules)
            self.assertEqual(self.shown("/a", b"a"), (0, b"stored\n"), rules)
            self.assertEqual(tree_of(self.image), {"a": b"a"})

    def test_a_file_that_is_no_volume(self) -> None:
        Path(self.image).write_bytes(b"something else")
        self.assertEqual(self.shown("/a", b"a"), (1, b"UDFBURN_VOLUME\n"))
        self.assertEqual(Path(self.image).read_bytes(), b"something else")


if __name__ == "__main__":
    unittest.main()
