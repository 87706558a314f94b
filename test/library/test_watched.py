"""The programs in C of this folder under valgrind and AddressSanitizer, in threads, on little stack, and many times over."""
from __future__ import annotations

from library.running import DRIVES, VALGRIND, Running

# Enough for a thread that calls the library (udfburn.h).
STACK = 65536


class Watched(Running):
    def test_under_address_sanitizer(self) -> None:
        for source, archive in (("calls.c", "libudfburn.a"), ("drives.c", DRIVES), ("packets.c", DRIVES)):
            with self.subTest(source):
                self.passes(source, self.compiled(source, archive=archive, watched=True))

    def test_under_valgrind(self) -> None:
        for source, archive in (("calls.c", "libudfburn.a"), ("drives.c", DRIVES), ("packets.c", DRIVES), ("told.c", "libudfburn.a")):
            with self.subTest(source):
                self.passes(source, self.compiled(source, archive=archive), VALGRIND)

    def test_drives_that_fail_and_lie_by_chance(self) -> None:
        for watched, rounds in ((False, "40"), (True, "10")):
            with self.subTest(watched=watched):
                said = self.ran(self.compiled("chance.c", archive=DRIVES, watched=watched), rounds)
                self.assertRegex(said, r"^chance: [1-9]\d+ expected, 0 failed\n$")

    def test_ten_thousand_opens(self) -> None:
        program = self.compiled("opens.c")
        said = self.ran(program, *self.words("opens.c"), "10000")
        self.assertRegex(said, r"^opens: 6\d{4} expected, 0 failed\n$")

    def test_what_a_volume_is(self) -> None:
        for watched in (False, True):
            with self.subTest(watched=watched):
                self.passes("told.c", self.compiled("told.c", watched=watched))

    def test_threads(self) -> None:
        self.passes("threads.c", self.compiled("threads.c", archive=DRIVES))

    def test_the_stack(self) -> None:
        program = self.compiled("stack.c")
        said = self.ran(program, *self.words("stack.c"), str(STACK))
        self.assertRegex(said, r"^stack: \d+ bytes\nstack: 37 expected, 0 failed\n$")
