"""The library shows what the header declares, and nothing else; the header says the limits that the crates have."""
from __future__ import annotations

import os
import re
import subprocess

from library.building import REPOSITORY, Case, build_library, built

DRIVES = {"udfburn_open_drive", "udfburn_open_drive_with", "udfburn_format_drive", "udfburn_drive_check", "udfburn_is_vat_icb", "udfburn_copy_vat_icb",
          "udfburn_format_mmc", "udfburn_open_mmc", "udfburn_mmc_check"}


def header() -> str:
    return (REPOSITORY / "library/udfburn.h").read_text()


def declared() -> set[str]:
    """The functions of the header, by their prototypes apart from comments."""
    code = re.sub(r"/\*.*?\*/", "", header(), flags=re.S)
    return set(re.findall(r"\b(udfburn_\w+)\s*\([^)]*\)\s*;", code))


def shown(*words: str) -> set[str]:
    said = subprocess.run(["nm", *words], capture_output=True, text=True, check=True).stdout
    return {line.split()[2].split("@")[0] for line in said.splitlines() if len(line.split()) == 3 and line.split()[1] != "A"}


class Exports(Case):
    def test_the_header_declares_functions(self) -> None:
        self.assertGreater(len(declared()), 25)
        self.assertLess(DRIVES, declared())

    def test_the_shared_library(self) -> None:
        self.assertEqual(shown("-D", "--defined-only", str(built().plain / "libudfburn.so")), declared())

    def test_the_archives(self) -> None:
        self.assertEqual(shown("--defined-only", "--extern-only", str(built().plain / "libudfburn.a")), declared() - DRIVES)
        self.assertEqual(shown("--defined-only", "--extern-only", str(built().plain / "libudfburn_drive.a")), declared())

    def test_flags_of_distributions(self) -> None:
        made = self.folder / "built"
        build_library(os.environ["LIBRARY_CORE"], made, "-flto=auto -ffat-lto-objects -fvisibility=hidden -D_FORTIFY_SOURCE=2")
        self.assertEqual(shown("-D", "--defined-only", str(made / "libudfburn.so")), declared())
        self.assertEqual(shown("--defined-only", "--extern-only", str(made / "libudfburn.a")), declared() - DRIVES)

    def test_the_map(self) -> None:
        self.assertEqual(set(re.findall(r"^ +(udfburn_\w+);$", (REPOSITORY / "library/udfburn.map").read_text(), re.M)), declared())

    def test_the_soname(self) -> None:
        said = subprocess.run(["readelf", "-d", str(built().plain / "libudfburn.so")], capture_output=True, text=True, check=True).stdout
        self.assertIn("[libudfburn.so.0]", said)
        self.assertEqual(re.findall(r"NEEDED.*\[(.*)\]", said), ["libc.so.6"])
        self.assertNotIn("TEXTREL", said)

    def test_limits(self) -> None:
        crate = (REPOSITORY / "crates/limits/src/lib.rt").read_text()
        for name, constant in (("BLOCK", "BLOCK_BYTES"), ("LEAST_CAPACITY", "LEAST_CAPACITY"), ("GREATEST_CAPACITY", "GREATEST_CAPACITY"),
                               ("FILE_LIMIT", "FILE_BYTES"), ("MOMENT_LIMIT", "MOMENT_LIMIT")):
            with self.subTest(name):
                said = re.search(r"#define UDFBURN_%s (\d+)" % name, header())
                wanted = re.search(r"pub const %s: \w+ = ([\d_]+);" % constant, crate)
                assert said and wanted
                self.assertEqual(int(said[1]), int(wanted[1].replace("_", "")))

    def test_statuses_by_name(self) -> None:
        """Each status of the header has its name, and each number outside of them has none."""
        statuses = dict(re.findall(r"^    (UDFBURN_[A-Z_]+) = (\d+)", header(), re.M))
        statuses = {name: number for name, number in statuses.items() if name not in ("UDFBURN_FILE", "UDFBURN_DIRECTORY")}
        self.assertGreater(len(statuses), 20)
        lines = ["#include \"udfburn.h\"", "#include <stdio.h>", "int main(void) {",
                 "    for (int i = -5; i < 300; i++) printf(\"%d %s\\n\", i, udfburn_error_name(i));", "    return 0;", "}"]
        source = self.folder / "names.c"
        source.write_text("\n".join(lines))
        said = self.ran(self.compiled(str(source)))
        wanted = {int(number): name for name, number in statuses.items()}
        for line in said.splitlines():
            number, name = line.split()
            self.assertEqual(name, wanted.get(int(number), "UDFBURN_UNKNOWN"))
