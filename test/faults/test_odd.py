"""Files that are none of ours, or not as they should be: what may not be written is not written, and nothing else is touched."""
from __future__ import annotations

import errno
import os
import random
import resource
import signal
import socket
import stat
import subprocess
from pathlib import Path
from typing import Any, Callable

from faults.case import FORMATTED_BLOCKS, Case, need_shim
from faults.log import read_log
from faults.machine import first_line, lacks, need_root, need_tools
from faults.programs import built, need_way
from faults.running import Daemon, Ran
from protocol import BLOCK, DAMAGED, FAULT, Answer, Model, Request, answers_of, committed, data_answer, encode, paths_of, query


FORMAT = ("DISC", "0", "600")
CREATE = Request("create", 7, 1, "/a", b"hello")
DEVICE = b"udfburn: 64 Device\n"
NOT_BLANK = b"udfburn: 61 NotBlank\n"
NOT_FORMATTED = b"udfburn: 66 NotFormatted\n"
WHOLE = FORMATTED_BLOCKS * BLOCK
# The user and group that own nothing.
NOBODY = 65534


def everything(image: str) -> list[tuple[str, ...]]:
    """The words of each command on an image."""
    return [("format", image, *FORMAT), ("apply", image), ("ls", image, "/"), ("get", image, "/a"), ("log", image), ("check", image)]


class Kinds(Case):
    """What is no regular file is `64 Device` for every command, and is neither read, written nor waited for."""

    def refused(self, image: str) -> None:
        for words in everything(image):
            with self.subTest(words):
                self.tell(self.udfburn(*words, stdin=encode(CREATE)), 1, b"", DEVICE)
        with self.subTest("the daemon"):
            ran = self.program([built().udfburnd, image, "s"])
            self.tell(ran, 1, b"", b"udfburnd: 64 Device\n")
            self.assertFalse(self.path("s").exists())

    def test_a_folder(self) -> None:
        self.path("folder").mkdir()
        self.refused("folder")
        self.assertEqual(os.listdir(self.path("folder")), [])

    def test_a_pipe(self) -> None:
        os.mkfifo(self.path("pipe"))
        self.refused("pipe")
        self.assertTrue(stat.S_ISFIFO(os.stat(self.path("pipe")).st_mode))

    def test_a_pipe_with_an_end(self) -> None:
        """Nothing is written into a pipe that another reads."""
        os.mkfifo(self.path("pipe"))
        end = os.open(self.path("pipe"), os.O_RDWR | os.O_NONBLOCK)
        self.addCleanup(os.close, end)
        self.refused("pipe")
        with self.assertRaises(BlockingIOError):
            os.read(end, 1)

    def test_a_socket(self) -> None:
        with socket.socket(socket.AF_UNIX) as listener:
            listener.bind(str(self.path("socket")))
            listener.listen()
            self.refused("socket")

    def test_a_character_device(self) -> None:
        self.refused("/dev/null")
        self.refused("/dev/zero")

    def test_a_block_device(self) -> None:
        need_root()
        need_tools("losetup")
        self.path("backing").write_bytes(bytes(1 << 20))
        made = subprocess.run(["losetup", "--find", "--show", str(self.path("backing"))], capture_output=True, text=True)
        if made.returncode:
            lacks("no loop device can be had: " + first_line(made.stderr))
        device = made.stdout.strip()
        self.addCleanup(subprocess.check_call, ["losetup", "--detach", device])
        self.refused(device)
        subprocess.run(["sync", device], check=True)
        self.assertEqual(self.path("backing").read_bytes(), bytes(1 << 20))

    def test_links(self) -> None:
        """A link is what it leads to."""
        new = self.fresh().read_bytes()
        self.path("link").symlink_to("d.img")
        self.assertEqual(answers_of(self.apply(encode(CREATE), "link").output), [committed(0, 1)])
        self.tell(self.udfburn("get", "link", "/a"), 0, b"hello", b"")
        self.assertTrue(self.path("link").is_symlink())
        self.assertGreater(self.path("d.img").stat().st_size, len(new))
        self.path("folder").mkdir()
        self.path("to_folder").symlink_to("folder")
        self.refused("to_folder")
        self.path("round").symlink_to("round")
        self.refused("round")

    def test_a_dangling_link(self) -> None:
        """It leads to nothing: it is not written through, so that no file is made elsewhere."""
        self.path("elsewhere").mkdir()
        self.path("dangling").symlink_to("elsewhere/d.img")
        self.refused("dangling")
        self.assertEqual(os.listdir(self.path("elsewhere")), [])
        self.assertTrue(self.path("dangling").is_symlink())

    def test_no_folder(self) -> None:
        self.refused("none/d.img")
        self.fresh("file")
        self.refused("file/d.img")
        self.refused("x" * 300)

    def test_no_name(self) -> None:
        self.refused("")


class Contents(Case):
    """What a format finds: the beginning of this very format, or what it does not touch."""

    def setUp(self) -> None:
        super().setUp()
        self.whole = self.fresh("whole.img").read_bytes()
        self.chance = random.Random(20261123)

    def finished(self, content: bytes) -> None:
        self.path("d.img").write_bytes(content)
        self.tell(self.udfburn("format", "d.img", *FORMAT), 0, b"formatted\n", b"")
        self.assertEqual(self.path("d.img").read_bytes(), self.whole)

    def kept(self, content: bytes, label: str = "DISC", line: bytes = NOT_BLANK) -> None:
        self.path("d.img").write_bytes(content)
        self.tell(self.udfburn("format", "d.img", label, "0", "600"), 1, b"", line)
        self.assertEqual(self.path("d.img").read_bytes(), content)

    def test_nothing(self) -> None:
        self.finished(b"")
        self.path("d.img").write_bytes(b"")
        for words in (("ls", "d.img", "/"), ("get", "d.img", "/a"), ("log", "d.img"), ("check", "d.img")):
            self.tell(self.udfburn(*words), 1, b"", NOT_FORMATTED)
        self.assertEqual(answers_of(self.apply(encode(CREATE)).output), [Answer(DAMAGED)])
        self.assertEqual(self.path("d.img").read_bytes(), b"")

    def test_some_bytes(self) -> None:
        """Notes, however few, are not overwritten."""
        for content in (b"h", b"hello\n", b"x" * 2047, b"x" * 2048, b"x" * 5000, b"\0" * 2047 + b"x",
                        self.chance.randbytes(3 * BLOCK)):
            with self.subTest(length=len(content)):
                self.kept(content)
                self.tell(self.udfburn("ls", "d.img", "/"), 1, b"", NOT_FORMATTED)

    def test_a_cut_format(self) -> None:
        """Cut at the edges of each block, and at other bytes: it is finished, with the bytes that it has otherwise."""
        lengths = {block * BLOCK + more for block in range(FORMATTED_BLOCKS) for more in (0, 1, 2047)}
        lengths |= {self.chance.randrange(WHOLE) for _ in range(100)}
        for length in sorted(lengths | {WHOLE}):
            with self.subTest(length=length):
                self.finished(self.whole[:length])

    def test_a_changed_byte(self) -> None:
        """A byte that differs, in a whole format or a cut one, up to its last byte: none of it is touched."""
        for _ in range(250):
            length = self.chance.choice((WHOLE, self.chance.randrange(1, WHOLE), self.chance.randrange(32 * BLOCK, 60 * BLOCK)))
            place = self.chance.choice((length - 1, self.chance.randrange(length), self.chance.randrange(length)))
            content = bytearray(self.whole[:length])
            content[place] ^= 1 << self.chance.randrange(8)
            with self.subTest(length=length, place=place):
                self.kept(bytes(content))

    def test_other_words(self) -> None:
        """A beginning that another label has is another's, from the block on that has the label (32)."""
        for blocks in (33, 50, 100, 257, FORMATTED_BLOCKS):
            with self.subTest(blocks=blocks):
                self.kept(self.whole[:blocks * BLOCK], "DISK")
        self.path("d.img").write_bytes(self.whole[:32 * BLOCK])
        self.tell(self.udfburn("format", "d.img", "DISK", "0", "600"), 0, b"formatted\n", b"")

    def test_longer_than_a_format(self) -> None:
        for more in (b"\0", b"x", bytes(BLOCK - 1), bytes(BLOCK), b"x" * BLOCK, bytes(10 * BLOCK + 7)):
            with self.subTest(more=len(more)):
                self.kept(self.whole + more)

    def test_a_volume_in_use(self) -> None:
        self.path("d.img").write_bytes(self.whole)
        self.apply(encode(CREATE))
        self.kept(self.path("d.img").read_bytes())

    def test_longer_than_its_capacity(self) -> None:
        """Of zeros, so that it takes no room."""
        path = self.path("d.img")
        path.write_bytes(self.whole)
        os.truncate(path, 601 * BLOCK)
        ran = self.udfburn("format", "d.img", *FORMAT)
        self.assertEqual(ran, Ran(1, b"", DEVICE))
        os.truncate(path, 450001 * BLOCK)
        for words in everything("d.img")[1:]:
            with self.subTest(words):
                self.tell(self.udfburn(*words), 1, b"", DEVICE)

    def test_a_wrong_label(self) -> None:
        """It makes no volume, and what is there stays."""
        self.tell(self.udfburn("format", "new.img", "", "0", "600"), 1, b"", b"udfburn: 62 Label\n")
        self.assertFalse(self.path("new.img").exists() and self.path("new.img").stat().st_size)
        self.kept(self.whole[:BLOCK * 5 + 3], "", b"udfburn: 62 Label\n")


class Rights(Case):
    """Images and folders that may not be written, as a user who is not root sees them."""

    def setUp(self) -> None:
        super().setUp()
        self.user: dict[str, Any] = {}
        self.fresh()
        self.apply(encode(CREATE))
        if os.geteuid() == 0:
            need_way()
            self.user = {"user": NOBODY, "group": NOBODY, "extra_groups": []}
            os.chown(self.path("d.img"), NOBODY, NOBODY)
            os.chown(self.folder, NOBODY, NOBODY)
        self.addCleanup(os.chmod, self.folder, 0o755)

    def as_user(self, *words: str, **others: Any) -> Ran:
        return self.udfburn(*words, **others, **self.user)

    def readable(self) -> None:
        self.tell(self.as_user("ls", "d.img", "/"), 0, b"f a\n", b"")
        self.tell(self.as_user("get", "d.img", "/a"), 0, b"hello", b"")
        self.assertEqual(self.as_user("log", "d.img").output.split(b"\n")[0].split()[0], b"1")
        self.tell(self.as_user("check", "d.img"), 0, b"sound 1\n", b"")

    def test_an_image_that_may_not_be_written(self) -> None:
        before = self.path("d.img").read_bytes()
        self.path("d.img").chmod(0o444)
        self.readable()
        self.tell(self.as_user("apply", "d.img", stdin=encode(CREATE)), 1, b"", DEVICE)
        self.tell(self.as_user("format", "d.img", *FORMAT), 1, b"", DEVICE)
        ran = self.program([built().udfburnd, "d.img", "s"], **self.user)
        self.tell(ran, 1, b"", b"udfburnd: 64 Device\n")
        self.assertEqual(self.path("d.img").read_bytes(), before)

    def test_an_image_that_may_not_be_read(self) -> None:
        before = self.path("d.img").read_bytes()
        for mode in (0o000, 0o222):
            self.path("d.img").chmod(mode)
            for words in everything("d.img"):
                with self.subTest(words=words, mode=mode):
                    self.tell(self.as_user(*words, stdin=encode(CREATE)), 1, b"", DEVICE)
        self.path("d.img").chmod(0o600)
        self.assertEqual(self.path("d.img").read_bytes(), before)

    def test_a_folder_that_may_not_be_written(self) -> None:
        whole = self.fresh("part.img").read_bytes()
        self.path("part.img").write_bytes(whole[:50 * BLOCK])
        self.path("part.img").chmod(0o666)
        self.folder.chmod(0o555)
        self.readable()
        self.tell(self.as_user("format", "new.img", *FORMAT), 1, b"", DEVICE)
        self.assertFalse(self.path("new.img").exists())
        # What is there may be written.
        self.tell(self.as_user("format", "part.img", *FORMAT), 0, b"formatted\n", b"")
        self.assertEqual(self.path("part.img").read_bytes(), whole)
        request = Request("mkdir", 7, 2, "/d")
        self.assertEqual(answers_of(self.as_user("apply", "d.img", stdin=encode(request)).output), [committed(0, 2)])

    def test_a_disk_that_is_mounted_for_reading(self) -> None:
        where = self.mounted("mounted", "-t", "tmpfs", "-o", "size=4m", "none")
        new = self.path("d.img").read_bytes()
        (where / "d.img").write_bytes(new)
        subprocess.run(["mount", "-o", "remount,ro", str(where)], check=True)
        image = str(where / "d.img")
        self.tell(self.udfburn("ls", image, "/"), 0, b"f a\n", b"")
        self.tell(self.udfburn("check", image), 0, b"sound 1\n", b"")
        self.tell(self.udfburn("apply", image, stdin=encode(CREATE)), 1, b"", DEVICE)
        self.tell(self.udfburn("format", str(where / "new.img"), *FORMAT), 1, b"", DEVICE)


class Limits(Case):
    """No more room: by a limit on the size of files, on a small disk."""

    STREAM = [Request("create", 1, number, "/%d" % number, bytes([number]) * 20000) for number in range(1, 30)]

    def limited(self, blocks: int, ignores: bool) -> Callable[[], None]:
        def limit() -> None:
            if ignores:
                signal.signal(signal.SIGXFSZ, signal.SIG_IGN)
            resource.setrlimit(resource.RLIMIT_FSIZE, (blocks * BLOCK, resource.RLIM_INFINITY))
        return limit

    def test_a_limit_on_the_size(self) -> None:
        """With the signal ignored, as by `trap '' XFSZ`: 36, and the tree is the one before; without the limit it is done."""
        for blocks in (263, 268, 270, 275, 281, 282, 283, 284, 285, 300):
            with self.subTest(blocks=blocks):
                self.fresh()
                model = Model()
                for request in self.STREAM[:4]:
                    ran = self.apply(encode(request), preexec_fn=self.limited(blocks, True))
                    self.assertEqual((ran.status, ran.errors), (0, b""))
                    (answer,) = answers_of(ran.output)
                    if answer == Answer(FAULT):
                        self.assertLessEqual(self.path("d.img").stat().st_size, blocks * BLOCK)
                        self.tree_is(model, paths_of(self.STREAM[:5]))
                        break
                    self.assertEqual(answer, model.answer(request))
                else:
                    self.fail("the limit was never met")
                self.assertEqual(answers_of(self.apply(encode(request)).output), [model.answer(request)])
                self.tree_is(model, paths_of(self.STREAM[:5]))

    def test_a_limit_under_the_daemon(self) -> None:
        self.fresh()
        model = Model()
        with Daemon(self.folder, preexec_fn=self.limited(300, True)) as daemon, daemon.client() as client:
            faults = 0
            for request in self.STREAM[:4]:
                answer = client.ask(encode(request))
                if answer == Answer(FAULT):
                    faults += 1
                    for _ in range(3):
                        self.assertEqual(client.ask(encode(request)), Answer(FAULT))
                    # A smaller one has room, and the queries are answered.
                    self.assertEqual(client.ask(query("get", "/1")), data_answer(self.STREAM[0].data))
                    small = Request("create", 9, 1, "/small", b"x")
                    self.assertEqual(client.ask(encode(small)), model.answer(small))
                    break
                self.assertEqual(answer, model.answer(request))
            self.assertEqual(faults, 1)
        self.tree_is(model, [*paths_of(self.STREAM[:4]), "/small"])

    def test_a_format_under_a_limit(self) -> None:
        whole = self.fresh("whole.img").read_bytes()
        for blocks in (1, 40, 261):
            with self.subTest(blocks=blocks):
                self.path("d.img").unlink(missing_ok=True)
                ran = self.udfburn("format", "d.img", *FORMAT, preexec_fn=self.limited(blocks, True))
                self.tell(ran, 1, b"", DEVICE)
                self.tell(self.udfburn("format", "d.img", *FORMAT), 0, b"formatted\n", b"")
                self.assertEqual(self.path("d.img").read_bytes(), whole)

    def test_the_signal_of_the_limit(self) -> None:
        """Where it is not ignored it ends the process, as a kill does: nothing is lost by it."""
        self.fresh()
        model = Model()
        for request in self.STREAM[:4]:
            ran = self.apply(encode(request), preexec_fn=self.limited(284, False))
            if ran.status != 0:
                self.assertEqual((ran.status, ran.output), (-signal.SIGXFSZ, b""))
                break
            self.assertEqual(answers_of(ran.output), [model.answer(request)])
        else:
            self.fail("the limit was never met")
        self.tree_is(model, paths_of(self.STREAM[:5]))
        self.assertEqual(answers_of(self.apply(encode(request)).output), [model.answer(request)])

    def full_disk(self, where: Path) -> None:
        """Requests until the disk is full; then 36, the tree is what was answered; with room again the rest is done."""
        image = where / "d.img"
        image.write_bytes(self.fresh().read_bytes())
        filler = where / "filler"
        with open(filler, "wb", buffering=0) as file:
            found = os.statvfs(where)
            file.write(bytes(max(found.f_bavail * found.f_frsize - 150000, 0)))
            # So that it takes no more room when the system gets to it.
            os.fsync(file.fileno())
        model = Model()
        paths = paths_of(self.STREAM)
        with Daemon(where, str(image), socket_name="s") as daemon, daemon.client() as client:
            done = 0
            for request in self.STREAM:
                answer = client.ask(encode(request))
                if answer == Answer(FAULT):
                    break
                self.assertEqual(answer, model.answer(request))
                done += 1
            else:
                self.fail("the disk was never full")
            self.assertGreater(done, 1)
            for _ in range(3):
                self.assertEqual(client.ask(encode(request)), Answer(FAULT))
            self.assertEqual(client.ask(query("get", "/1")), data_answer(self.STREAM[0].data))
            self.path("copy.img").write_bytes(image.read_bytes())
            self.tree_is(model, paths, "copy.img")
            filler.unlink()
            for request in self.STREAM[done:done + 3]:
                self.assertEqual(client.ask(encode(request)), model.answer(request))
        self.path("copy.img").write_bytes(image.read_bytes())
        self.tree_is(model, paths, "copy.img")

    def test_a_full_disk_in_memory(self) -> None:
        self.full_disk(self.mounted("small", "-t", "tmpfs", "-o", "size=1500k", "none"))

    def test_a_full_disk(self) -> None:
        need_root()
        need_tools("mkfs.ext4")
        disk = self.path("disk")
        with open(disk, "wb") as file:
            file.truncate(8 << 20)
        subprocess.run(["mkfs.ext4", "-q", "-F", "-m", "0", str(disk)], check=True)
        self.full_disk(self.mounted("small", "-o", "loop", str(disk)))

    def test_a_limit_is_told_by_the_system(self) -> None:
        """The limit is met by a write, so that the tests above test what they say."""
        need_shim()
        self.fresh()
        self.apply(encode(self.STREAM[0]), preexec_fn=self.limited(265, True), log=self.log_path())
        failed = {record.error for record in read_log(self.log_path()) if record.kind == "pwrite"}
        self.assertIn(errno.EFBIG, failed)
