"""What is told of a volume and its past, drives that are verified, images that somebody changed, and the versions of the header."""
from __future__ import annotations

import os
import re

from library.building import CLANG, GCC, GPP, REPOSITORY, built
from library.running import DRIVES, VALGRIND, Running, version

LARGE = os.environ.get("LARGE") == "1"
# Of images that are changed at random, under AddressSanitizer and as they are shipped.
SECONDS = "300" if LARGE else "45"
SECONDS_PLAIN = "100" if LARGE else "15"
SEED = "20261129"
ROUNDS = "2000" if LARGE else "20"


class Views(Running):
    def test_by_compilers(self) -> None:
        for compiler, archive in ((CLANG, "libudfburn.a"), (GPP, "libudfburn.so")):
            with self.subTest(compiler=str(compiler)):
                self.passes("views.c", self.compiled("views.c", compiler, archive))

    def test_watched(self) -> None:
        self.passes("views.c", self.compiled("views.c", watched=True))

    def test_under_valgrind(self) -> None:
        self.passes("verify.c", self.compiled("verify.c", archive=DRIVES), VALGRIND, "3")

    def test_a_drive_that_flips_bits(self) -> None:
        self.passes("verify.c", self.compiled("verify.c", archive=DRIVES, watched=True), (), ROUNDS)


class Mutated(Running):
    """Images with changes by chance: a status for each call."""

    def setUp(self) -> None:
        super().setUp()
        self.volume = self.folder / "volume.img"
        made = self.udfburn("format", "volume.img", "DISC", "0", "2000")
        self.assertEqual((made.returncode, made.stderr), (0, b""))
        program = self.compiled("filled.c")
        self.assertEqual(self.ran(program, str(self.volume)), "")

    def changed(self, seconds: str, seed: str, watched: bool) -> None:
        program = self.compiled("mutated.c", watched=watched)
        counts, last = self.ran(program, str(self.volume), seconds, seed).splitlines()
        self.assertRegex(last, r"^mutated: [1-9]\d+ expected, 0 failed$")
        images, opened, calls = map(int, counts.split())
        # Some are opened and some are not.
        self.assertTrue(0 < opened < images and calls > opened, counts)

    def test_watched(self) -> None:
        self.changed(SECONDS, SEED, True)

    def test_plain(self) -> None:
        self.changed(SECONDS_PLAIN, SEED + "1", False)


class Header(Running):
    def test_its_version(self) -> None:
        """It is that of the programs."""
        first, second, third = map(int, version().split("."))
        header = (built().plain / "udfburn.h").read_text()
        self.assertIn("#define UDFBURN_VERSION_NUMBER %d\n" % (first * 10000 + second * 100 + third), header)

    def test_its_statuses_are_signed(self) -> None:
        """As what the calls return, for generators of bindings."""
        source = self.folder / "signed.c"
        source.write_text("#include \"udfburn.h\"\nint main(void) { return (enum udfburn_code)-1 < 0 && sizeof(enum udfburn_code) == 4 ? 0 : 1; }\n")
        for compiler in (GCC, CLANG, GPP):
            self.assertEqual(self.ran(self.compiled(str(source), compiler)), "")

    def test_its_limits(self) -> None:
        """They are those of the core."""
        core = (REPOSITORY / "crates/limits/src/lib.rt").read_text()
        found = dict(re.findall(r"^pub const (\w+): \w+ = ([\d_]+);", core, re.M))
        header = dict(re.findall(r"^#define UDFBURN_(\w+) (\d+)", (built().plain / "udfburn.h").read_text(), re.M))
        for name, other in (("BLOCK", "BLOCK_BYTES"), ("LEAST_CAPACITY",) * 2, ("GREATEST_CAPACITY",) * 2, ("FILE_LIMIT", "FILE_BYTES"),
                            ("MOMENT_LIMIT",) * 2, ("NODES",) * 2, ("NAMES", "DIRECTORY_NAMES"), ("DEPTH", "PATH_NAMES"),
                            ("CLIENTS",) * 2, ("REPLIES", "KEPT_REPLIES")):
            with self.subTest(name):
                self.assertEqual(int(header[name]), int(found[other].replace("_", "")))

    def test_the_longest_path(self) -> None:
        """A path of so many bytes is made, and so is a label."""
        self.assertEqual(self.ran(self.compiled("longest.c"), *self.words("longest.c")), "longest: 22 expected, 0 failed\n")

    def test_each_release_has_a_node(self) -> None:
        nodes = re.findall(r"^(UDFBURN_[\d.]+) \{", (REPOSITORY / "library/udfburn.map").read_text(), re.M)
        self.assertEqual(nodes, ["UDFBURN_0", "UDFBURN_0.4"])
        said = self.ran("readelf", "--wide", "--dyn-syms", str(built().plain / "libudfburn.so"))
        self.assertIn("udfburn_open@@UDFBURN_0\n", said)
        self.assertIn("udfburn_reason@@UDFBURN_0.4\n", said)
