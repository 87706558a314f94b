"""The requests and queries of the library in C: as it is shipped with two compilers, and under AddressSanitizer."""
from __future__ import annotations

import re

from library.building import CLANG, GCC, Case
from library.running import VALGRIND


class Requests(Case):
    def holds(self, *words: str) -> None:
        last = self.ran(*words).splitlines()[-1]
        found = re.fullmatch(r"requests: (\d+) passed, 0 failed", last)
        self.assertTrue(found and int(found[1]) > 300, last)

    def test_by_compilers(self) -> None:
        for compiler in (GCC, CLANG):
            with self.subTest(compiler=str(compiler)):
                self.holds(self.compiled("requests.c", compiler))

    def test_watched(self) -> None:
        self.holds(self.compiled("requests.c", watched=True))

    def test_under_valgrind(self) -> None:
        self.holds(*VALGRIND, self.compiled("requests.c"))
