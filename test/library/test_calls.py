"""The programs in C of this folder by each compiler, with each form of the library."""
from __future__ import annotations

import subprocess

from library.building import CLANG, GCC, GPP, REPOSITORY, WARNINGS, Compiler
from library.running import DRIVES, Running


class Calls(Running):
    def with_each_form(self, compiler: Compiler) -> None:
        for source, archive in (("calls.c", "libudfburn.a"), ("calls.c", DRIVES), ("calls.c", "libudfburn.so"), ("drives.c", DRIVES),
                                ("drives.c", "libudfburn.so"), ("packets.c", DRIVES), ("packets.c", "libudfburn.so")):
            with self.subTest(source=source, archive=archive):
                self.passes(source, self.compiled(source, compiler, archive))

    def test_by_gcc(self) -> None:
        self.with_each_form(GCC)

    def test_by_clang(self) -> None:
        self.with_each_form(CLANG)

    def test_by_gpp(self) -> None:
        self.with_each_form(GPP)

    def test_by_a_strict_compiler(self) -> None:
        """The header alone, by the oldest language of each kind."""
        for compiler, language in (("gcc", "c99"), ("gcc", "c17"), ("clang", "c99"), ("g++", "c++98"), ("g++", "c++20"), ("clang++", "c++11")):
            with self.subTest(compiler=compiler, language=language):
                header = str(REPOSITORY / "library/udfburn.h")
                kind = "c++" if "++" in compiler else "c"
                words = [compiler, "-std=" + language, "-x", kind, "-Wall", "-Wextra", "-Werror", "-pedantic", "-fsyntax-only", "-include",
                         header, "/dev/null"]
                done = subprocess.run(words, capture_output=True, text=True)
                self.assertEqual((done.returncode, done.stderr), (0, ""))

    def test_sources_without_warnings(self) -> None:
        for compiler in (GCC, CLANG):
            for source in sorted((REPOSITORY / "library").glob("*.c")):
                with self.subTest(compiler=compiler.command, source=source.name):
                    words = [compiler.command, *compiler.words, "-O2", *WARNINGS, "-Wshadow", "-DUDFBURN_VERSION=\"0\"", "-c", str(source),
                             "-o", "/dev/null"]
                    done = subprocess.run(words, capture_output=True, text=True)
                    self.assertEqual((done.returncode, done.stderr), (0, ""))
