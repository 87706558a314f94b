"""How the client finds the C library, and what it does with each status. The library of these tests is a stub of a few lines;
`over_library` has the real one."""

from __future__ import annotations

import os
import shutil
import subprocess
import tempfile
import time
import unittest
from contextlib import redirect_stderr
from io import StringIO
from threading import Event, Thread
from types import SimpleNamespace
from typing import Dict, List
from unittest import mock

from udfburn import Client
from udfburn.base import errors as e
from udfburn.wire import library
from udfburn.wire.connection import PIECES_AT_ONCE, Lost
from udfburn.commands.cli import main
from udfburn.wire.endpoint import Endpoint
from udfburn.wire.retrying import TURN, RetryingConnection

STUB = """
#include <stdint.h>
#include <stdlib.h>
#include <string.h>
static int32_t said(const char *name) { return getenv(name) ? atoi(getenv(name)) : 0; }
const char *udfburn_version(void) { return "9.8.7"; }
const char *udfburn_error_name(int32_t s) {
    static const char *const names[] = {"UDFBURN_MISUSE", "UDFBURN_BUSY", "UDFBURN_NO_IMAGE", "UDFBURN_NO_SPACE", "UDFBURN_READ_ONLY"};
    return s == 1 ? "UDFBURN_MEMORY" : s == 2 ? "UDFBURN_DEVICE" : s >= 8 && s <= 12 ? names[s - 8] : "UDFBURN_VOLUME";
}
int32_t udfburn_format(const char *path, const char *label, uint64_t moment, uint32_t capacity) { return said("STUB_FORMAT"); }
int32_t udfburn_open(const char *path, void **out) { *out = (void *)path; return said("STUB_OPEN"); }
int32_t udfburn_answer(void *handle, const void *bytes, size_t count) { return said("STUB_ANSWER"); }
#ifndef OLDER
size_t udfburn_answered(const void *handle) { return 0; }
#endif
size_t udfburn_take(void *handle, void *into, size_t room) { return 0; }
struct udfburn_reason { size_t size; int32_t status, error; char call[32], path[256]; };
int32_t udfburn_reason(void *handle, struct udfburn_reason *reason) {
    if (!getenv("STUB_CALL")) return 7;
    if (reason->size != sizeof *reason) return 6;
    reason->status = said(handle ? "STUB_ANSWER" : getenv("STUB_FORMAT") ? "STUB_FORMAT" : "STUB_OPEN") + said("STUB_LATER");
    reason->error = said("STUB_NUMBER");
    strcpy(reason->call, getenv("STUB_CALL"));
    strcpy(reason->path, handle ? "" : "/a/disc.img");
    return 0;
}
void udfburn_close(void *handle) {}
"""


class WithStub(unittest.TestCase):
    """A file that is taken for an image, and the library of these few lines."""

    room: str
    stub: str

    @classmethod
    def setUpClass(cls) -> None:
        cls.room = tempfile.mkdtemp()
        cls.addClassCleanup(shutil.rmtree, cls.room)
        cls.stub = cls.built()

    def setUp(self) -> None:
        self.image = os.path.join(self.room, "disc.img")
        with open(self.image, "wb") as file:
            file.write(bytes(2048))
        for patched in (mock.patch.dict(library._found, clear=True), mock.patch.dict(os.environ, UDFBURN_LIBRARY=self.stub)):
            patched.start()
            self.addCleanup(patched.stop)

    @classmethod
    def built(cls, *words: str) -> str:
        """The library, compiled with these words."""
        source, made = os.path.join(cls.room, "stub.c"), os.path.join(cls.room, f"stub{len(words)}.so")
        with open(source, "w", encoding="ascii") as file:
            file.write(STUB)
        subprocess.run(["cc", "-shared", "-fPIC", *words, source, "-o", made], check=True)
        return made


class Found(WithStub):
    """How the library is found."""

    def refused(self, words: str, **environment: str) -> None:
        with mock.patch.dict(os.environ, environment), self.assertRaisesRegex(e.UsageError, words):
            Client(f"library:{self.image}")

    def test_its_version(self) -> None:
        endpoint = Endpoint(f"library:{self.image}")
        assert endpoint.library
        self.assertEqual((endpoint.library.name, endpoint.library.version()), (os.environ["UDFBURN_LIBRARY"], "9.8.7"))

    def test_one_way_in_a_ledger(self) -> None:
        """With the program and with the library, an image is the same volume."""
        by_library, by_program = Endpoint(f"library:{self.image}"), Endpoint(f"image:{self.image}", "udfburn")
        self.assertEqual((by_library.key(), by_library.kind), (by_program.key(), by_program.kind))
        self.assertEqual((str(by_library), str(by_program)), (f"library:{self.image}", f"image:{self.image}"))

    def test_a_missing_one(self) -> None:
        self.refused("^/nonexistent/lib.so cannot be loaded .*UDFBURN_LIBRARY", UDFBURN_LIBRARY="/nonexistent/lib.so")

    def test_another_one(self) -> None:
        self.refused("^libc.so.6 has no udfburn_version: it is older than this client, or a different library", UDFBURN_LIBRARY="libc.so.6")

    def test_an_older_one(self) -> None:
        self.refused("has no udfburn_answered: it is older", UDFBURN_LIBRARY=self.built("-DOLDER"))

    def test_by_the_usual_search(self) -> None:
        """Without UDFBURN_LIBRARY, the loader looks for it."""
        with mock.patch.dict(os.environ, UDFBURN_LIBRARY=""), mock.patch("ctypes.CDLL", side_effect=OSError("sought")) as loaded:
            with self.assertRaisesRegex(e.UsageError, "libudfburn.so.0 cannot be loaded .sought"):
                Client(f"library:{self.image}")
        loaded.assert_called_once_with("libudfburn.so.0")

    def test_it_keeps_the_image(self) -> None:
        """Nobody gets a turn before the image is closed."""
        line = RetryingConnection(Endpoint(f"library:{self.image}"))
        self.addCleanup(line.drop)
        line.get()
        with mock.patch("udfburn.wire.retrying.time", SimpleNamespace(monotonic=lambda: time.monotonic() + 1000 * TURN)):
            self.assertFalse(line.over())

    def test_words(self) -> None:
        for words in (["ls", "--library"], ["ls", "--library", "--image", self.image, "--socket", "s"], ["ls", "--library", "--image", ""]):
            with mock.patch.dict(os.environ, UDFBURN_SOCKET="s"), redirect_stderr(StringIO()):
                self.assertEqual(main([*words, "--quiet"]), 2, words)
        with self.assertRaises(e.UsageError):
            Endpoint("library:")


class Statuses(WithStub):
    """What a status means."""

    def fails(self, error: type, words: str, **statuses: str) -> None:
        environment: Dict[str, str] = {f"STUB_{name.upper()}": status for name, status in statuses.items()}
        with mock.patch.dict(os.environ, environment), Client(f"library:{self.image}", patience=0.0) as client:
            with self.assertRaisesRegex(error, words):
                client.get("/a")

    def test_of_an_open(self) -> None:
        self.fails(e.Damaged, "holds no volume or a damaged one", open="5")
        self.fails(e.ConnectionFailed, "UDFBURN_DEVICE: .* its folder is missing", open="2")
        self.fails(e.ConnectionFailed, "UDFBURN_BUSY: another program has the image", open="9")
        self.fails(e.ConnectionFailed, "UDFBURN_NO_IMAGE: there is no such image", open="10")
        self.fails(e.ConnectionFailed, "UDFBURN_READ_ONLY: the image may not be written", open="12")
        self.fails(e.ConnectionFailed, "UDFBURN_MEMORY", open="1")

    def test_of_a_format(self) -> None:
        for status, words in (("5", "holds something already, and stays as it is"), ("1", "UDFBURN_MEMORY"),
                              *((status, f"cannot be made or written: .*{name}") for status, name in (
                                  ("2", "UDFBURN_DEVICE"), ("9", "UDFBURN_BUSY"), ("11", "UDFBURN_NO_SPACE"), ("12", "UDFBURN_READ_ONLY")))):
            errors = StringIO()
            with mock.patch.dict(os.environ, STUB_FORMAT=status), redirect_stderr(errors):
                self.assertEqual(main(["format", "--library", "--quiet", self.image]), 1)
            self.assertRegex(errors.getvalue(), words)

    def test_the_reason(self) -> None:
        """What failed below a call, with its errno and its path, is in the message; 28 is ENOSPC and 5 EIO on Linux."""
        full = r"UDFBURN_NO_SPACE: the disk of the image is full .fsync: No space left on device.: make room"
        self.fails(e.DiskFull, full, answer="11", call="fsync", number="28")
        self.fails(e.ConnectionFailed, r"UDFBURN_DEVICE: .* .open of /a/disc.img: Input/output error. .tried", open="2", call="open", number="5")
        self.fails(e.ConnectionFailed, r"UDFBURN_DEVICE: .* .fstat of /a/disc.img. .tried", open="2", call="fstat")
        # That of another call is not taken for it.
        self.fails(e.ConnectionFailed, r"its disk failed .tried", open="2", call="open", number="5", later="1")
        errors = StringIO()
        with mock.patch.dict(os.environ, STUB_FORMAT="2", STUB_CALL="pwrite", STUB_NUMBER="5"), redirect_stderr(errors):
            self.assertEqual(main(["format", "--library", "--quiet", self.image]), 1)
        self.assertIn("(UDFBURN_DEVICE) (pwrite of /a/disc.img: Input/output error)", errors.getvalue())

    def test_an_interrupted_open(self) -> None:
        """The volume is closed again."""
        found = library.find_library()
        with mock.patch.object(library.Library, "require", side_effect=KeyboardInterrupt), mock.patch.object(found.calls, "udfburn_close") as closed:
            with self.assertRaises(KeyboardInterrupt):
                library.LibraryVolume(found, self.image)
        closed.assert_called_once()

    def test_of_an_answer(self) -> None:
        self.fails(e.ConnectionFailed, "UDFBURN_DEVICE", answer="2")
        self.fails(e.ConnectionFailed, "UDFBURN_MISUSE: another thread", answer="8")
        self.fails(e.DiskFull, "UDFBURN_NO_SPACE: the disk of the image is full", answer="11")
        self.fails(e.ConnectionFailed, "UDFBURN_MEMORY", answer="1")

    def test_no_answer(self) -> None:
        """If no answer comes, none is waited for."""
        self.fails(e.ConnectionFailed, "the conversation was ended")

    def test_what_is_sent(self) -> None:
        """All pieces come to the library as one, in order, when an answer is asked for, and once."""
        connection = library.LibraryConnection(self.image, library.find_library())
        self.addCleanup(connection.close)
        counted = [b"%d " % index for index in range(2 * PIECES_AT_ONCE + 1)]
        with mock.patch.object(connection.volume, "answer") as answer:
            connection.send(b"first ", b"", *counted)
            connection.send(b"last")
            answer.assert_not_called()
            for _ in range(2):
                with self.assertRaisesRegex(Lost, "was ended"):
                    connection.payload()
        answer.assert_called_once_with(b"first " + b"".join(counted) + b"last")

    def test_an_image_that_is_not_there(self) -> None:
        os.unlink(self.image)
        self.fails(e.ProgramFailed, "No such file")

    def test_a_child(self) -> None:
        """A child writes nothing to what its parent opened. It closes its copy."""
        assert (endpoint := Endpoint(f"library:{self.image}")).library
        with mock.patch("os.getpid", return_value=1):
            volume = library.LibraryVolume(endpoint.library, self.image)
        with self.assertRaisesRegex(e.UsageError, "before the fork"):
            volume.answer(b"")
        with mock.patch.object(endpoint.library.calls, "udfburn_close") as closed:
            volume.close()
            volume.close()
        self.assertEqual([bool(call.args[0].value) for call in closed.call_args_list], [True, False])

    def test_closed_by_another_thread(self) -> None:
        """The library leaves a volume open that is in a call, so it is closed after the call."""
        found, begun, goes_on = library.find_library(), Event(), Event()
        volume = library.LibraryVolume(found, self.image)
        done: List[str] = []

        def answer(*words: object) -> int:
            begun.set()
            goes_on.wait(60)
            done.append("answered")
            return library.OK

        closed = mock.patch.object(found.calls, "udfburn_close", lambda handle: done.append("closed"))
        with closed, mock.patch.object(found.calls, "udfburn_answer", answer):
            threads = [Thread(target=volume.answer, args=(b"",)), Thread(target=volume.close)]
            threads[0].start()
            self.assertTrue(begun.wait(60))
            threads[1].start()
            threads[1].join(0.2)
            goes_on.set()
            for thread in threads:
                thread.join()
        self.assertEqual(done, ["answered", "closed"])


if __name__ == "__main__":
    unittest.main()
