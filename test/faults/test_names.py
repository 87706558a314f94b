"""An image that another deletes, moves over, cuts or lengthens under a program: nothing is acknowledged that is not in a file with a
name."""
from __future__ import annotations

import os
import shutil
import signal
import subprocess
from typing import Callable, Optional

from faults.case import Case, need_shim
from faults.log import read_log
from faults.processes import PATIENCE
from faults.programs import built
from faults.running import Client, Daemon, environment
from protocol import BLOCK, FAULT, Answer, Model, Request, answers_of, committed, data_answer, encode, query, split_answers


FIRST = Request("create", 7, 1, "/a", b"hello")
SECOND = Request("mkdir", 7, 2, "/d")


class Names(Case):
    def refused_behind(self, change: Callable[[], None]) -> None:
        """A daemon commits `FIRST`; the file is changed; `SECOND` is a fault then, each time, also of another client."""
        self.fresh()
        with Daemon(self.folder) as daemon:
            with daemon.client() as client:
                self.assertEqual(client.ask(encode(FIRST)), committed(0, 1))
                change()
                for _ in range(3):
                    self.assertEqual(client.ask(encode(SECOND)), Answer(FAULT))
            with daemon.client() as other:
                self.assertEqual(other.ask(encode(Request("mkdir", 8, 1, "/other"))), Answer(FAULT))
                self.assertEqual(other.ask(encode(SECOND)), Answer(FAULT))

    def test_deleted(self) -> None:
        self.refused_behind(lambda: self.path("d.img").unlink())
        self.assertFalse(self.path("d.img").exists())

    def test_replaced(self) -> None:
        def replace() -> None:
            shutil.copyfile(self.path("d.img"), self.path("other.img"))
            self.path("other.img").replace(self.path("d.img"))
        self.refused_behind(replace)
        # The file that has the name now was not touched, and a daemon on it goes on.
        model = Model()
        model.answer(FIRST)
        self.tree_is(model, ["/", "/a", "/d"])
        with Daemon(self.folder) as daemon, daemon.client() as client:
            self.assertEqual(client.ask(encode(SECOND)), committed(0, 2))
        model.answer(SECOND)
        self.tree_is(model, ["/", "/a", "/d"])

    def test_cut(self) -> None:
        for length in (0, 100 * BLOCK, 262 * BLOCK, 266 * BLOCK):
            with self.subTest(length=length):
                self.refused_behind(lambda: os.truncate(self.path("d.img"), length))
                self.assertEqual(self.path("d.img").stat().st_size, length)

    def test_longer(self) -> None:
        """By whole blocks of zeros or of something: they are not the program's own."""
        for more in (bytes(BLOCK), b"x" * BLOCK, bytes(3 * BLOCK + 5)):
            with self.subTest(more=len(more)):
                def lengthen() -> None:
                    with open(self.path("d.img"), "ab") as file:
                        file.write(more)
                self.refused_behind(lengthen)
                # It ends as the other one left it, and what was committed is in it.
                self.assertTrue(self.path("d.img").read_bytes().endswith(more))
                self.assertEqual(self.sound(), 1)
                with Daemon(self.folder) as daemon, daemon.client() as client:
                    self.assertEqual(client.ask(encode(SECOND)), committed(0, 2))
                self.assertEqual(self.sound(), 2)

    def test_moved_away(self) -> None:
        """A file that has another name now is a file with a name: what is acknowledged is in it."""
        self.fresh()
        with Daemon(self.folder) as daemon, daemon.client() as client:
            self.assertEqual(client.ask(encode(FIRST)), committed(0, 1))
            self.path("d.img").rename(self.path("moved.img"))
            self.assertEqual(client.ask(encode(SECOND)), committed(0, 2))
        model = Model()
        model.answer(FIRST)
        model.answer(SECOND)
        self.tree_is(model, ["/", "/a", "/d"], "moved.img")
        self.assertFalse(self.path("d.img").exists())

    def test_another_name(self) -> None:
        """A file that has a hard link has a name, whatever became of the one that the daemon was started with: what is acknowledged is in
        it, and not in the file that has that name now."""
        model = Model()
        model.answer(FIRST)
        for is_replaced in (False, True):
            with self.subTest(is_replaced=is_replaced):
                self.fresh()
                with Daemon(self.folder) as daemon, daemon.client() as client:
                    self.assertEqual(client.ask(encode(FIRST)), committed(0, 1))
                    os.link(self.path("d.img"), self.path("linked.img"))
                    shutil.copyfile(self.path("d.img"), self.path("other.img"))
                    if is_replaced:
                        self.path("other.img").replace(self.path("d.img"))
                    else:
                        self.path("d.img").unlink()
                    self.assertEqual(client.ask(encode(SECOND)), committed(0, 2))
                    self.tell(self.udfburn("ls", "linked.img", "/"), 0, b"f a\nd d\n", b"")
                    if is_replaced:
                        self.tree_is(model, ["/", "/a", "/d"])
                    # Without its last name it is refused.
                    self.path("linked.img").unlink()
                    self.assertEqual(client.ask(encode(Request("mkdir", 7, 3, "/e"))), Answer(FAULT))

    def test_deleted_under_apply(self) -> None:
        self.fresh()
        process = subprocess.Popen([built().udfburn, "apply", "d.img"], cwd=self.folder, stdin=subprocess.PIPE,
                                   stdout=subprocess.PIPE, stderr=subprocess.PIPE, env=environment())
        assert process.stdin is not None and process.stdout is not None

        def ask(frame: bytes) -> Optional[Answer]:
            assert process.stdin is not None and process.stdout is not None
            process.stdin.write(frame)
            process.stdin.flush()
            found = b""
            while not split_answers(found)[0]:
                piece = os.read(process.stdout.fileno(), 4096)
                if not piece:
                    return None
                found += piece
            return split_answers(found)[0][0]

        self.assertEqual(ask(encode(FIRST)), committed(0, 1))
        self.path("d.img").unlink()
        self.assertEqual(ask(encode(SECOND)), Answer(FAULT))
        _, errors = process.communicate()
        self.assertEqual((process.returncode, errors), (0, b""))

    def test_in_the_middle_of_a_commit(self) -> None:
        """Deleted or replaced while a commit is under way, at each of its calls up to the last sync: a fault too."""
        need_shim()
        self.fresh()
        self.apply(encode(FIRST), log=self.log_path())
        records = read_log(self.log_path())
        calls = [(record.kind, sum(other.kind == record.kind for other in records[:index + 1]))
                 for index, record in enumerate(records) if record.kind in ("pwrite", "fsync")]
        self.assertGreaterEqual(len(calls), 4)
        for kind, number in calls[1:]:
            for is_replaced in (False, True):
                with self.subTest(kind=kind, number=number, is_replaced=is_replaced):
                    image = self.fresh()
                    before = image.read_bytes()
                    process = self.stopped([built().udfburn, "apply", "d.img"], encode(FIRST), "d.img",
                                           "%s:%d:H" % (kind, number))
                    if is_replaced:
                        self.path("other.img").write_bytes(before)
                        self.path("other.img").replace(image)
                    else:
                        image.unlink()
                    process.send_signal(signal.SIGCONT)
                    output, errors = process.communicate(timeout=PATIENCE)
                    self.assertEqual((process.returncode, answers_of(output), errors), (0, [Answer(FAULT)], b""))
                    if is_replaced:
                        self.assertEqual(image.read_bytes(), before)

    def test_queries_behind_it(self) -> None:
        """A query changes nothing: it is answered by what was committed, or is a fault."""
        self.fresh()
        with Daemon(self.folder) as daemon, daemon.client() as client:
            self.assertEqual(client.ask(encode(FIRST)), committed(0, 1))
            self.path("d.img").unlink()
            self.assertIn(client.ask(query("get", "/a")), [data_answer(b"hello"), Answer(FAULT)])
            self.assertEqual(client.ask(encode(SECOND)), Answer(FAULT))

    def test_it_is_the_name_that_counts(self) -> None:
        """The same steps without the deletion are done, so that the refusals above are its doing."""
        self.fresh()
        with Daemon(self.folder) as daemon:
            with daemon.client() as client:
                self.assertEqual(client.ask(encode(FIRST)), committed(0, 1))
                self.assertEqual(client.ask(encode(SECOND)), committed(0, 2))
            with Client(daemon.path) as other:
                self.assertEqual(other.ask(encode(Request("mkdir", 8, 1, "/other"))), committed(0, 3))
