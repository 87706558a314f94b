"""Files that grow by pieces, by the calls of the library in C."""
from __future__ import annotations

from library.building import CLANG, GPP
from library.running import VALGRIND, Running


class Appends(Running):
    def test_by_compilers(self) -> None:
        for compiler, archive in ((CLANG, "libudfburn.a"), (GPP, "libudfburn.so")):
            with self.subTest(compiler=str(compiler)):
                self.passes("appends.c", self.compiled("appends.c", compiler, archive), (), *self.words("appends.c"), "most")

    def test_watched(self) -> None:
        self.passes("appends.c", self.compiled("appends.c", watched=True))

    def test_under_valgrind(self) -> None:
        self.passes("appends.c", self.compiled("appends.c"), VALGRIND)
