"""Each allocation refused in turn: UDFBURN_MEMORY and never a crash, and after repeats the same volume as without."""
from __future__ import annotations

import subprocess

from faults.programs import HERE as FAULTS
from faults.programs import compile_shim
from library.building import PATIENCE, Case


class Memory(Case):
    def setUp(self) -> None:
        super().setUp()
        self.shim = str(self.folder / "allocfail.so")
        compile_shim(FAULTS / "allocfail.c", self.folder / "allocfail.so")
        self.program = self.compiled("memory.c")
        self.assertEqual(self.life("whole.img"), "done\n")
        self.whole = (self.folder / "whole.img").read_bytes()

    def life(self, image: str, **rule: str) -> str:
        """What the program says at its end, on a new image, while allocations are refused by this rule."""
        (self.folder / image).unlink(missing_ok=True)
        environment = self.environment(LD_PRELOAD=self.shim, **rule) if rule else self.environment()
        done = subprocess.run([self.program, image], capture_output=True, text=True, cwd=self.folder, env=environment, timeout=PATIENCE)
        self.assertEqual((done.returncode, done.stderr), (0, ""), "%s: %s" % (rule, done.stdout))
        return done.stdout

    def count(self) -> int:
        counted = self.folder / "count"
        self.life("count.img", ALLOC_COUNT=str(counted))
        found = int(counted.read_text())
        self.assertGreater(found, 100)
        return found

    def test_each_alone(self) -> None:
        for number in range(1, self.count() + 2):
            with self.subTest(number=number):
                self.assertEqual(self.life("one.img", ALLOC_FAIL=str(number)), "done\n")
                self.assertEqual((self.folder / "one.img").read_bytes(), self.whole)

    def test_all_from_one_on(self) -> None:
        """What was written is a beginning of what is written without."""
        said = set()
        count = self.count()
        for number in [*range(1, count, 3), count + 1]:
            with self.subTest(number=number):
                said.add(self.life("from.img", ALLOC_FROM=str(number)))
                image = self.folder / "from.img"
                self.assertTrue(self.whole.startswith(image.read_bytes() if image.exists() else b""))
        self.assertEqual(said, {"done\n", "memory\n"})

    def test_each_so_many_th(self) -> None:
        for number in range(2, 60):
            with self.subTest(number=number):
                self.assertIn(self.life("each.img", ALLOC_EVERY=str(number)), ("done\n", "memory\n"))
                image = self.folder / "each.img"
                self.assertTrue(self.whole.startswith(image.read_bytes() if image.exists() else b""))

    def test_blocks_of_a_volume_in_memory(self) -> None:
        """Whether those that wait are written or not: the volume is sound, and the request that was refused runs once."""
        program = self.compiled("blocks.c")
        counted = self.folder / "count"
        for mode in ("all", "none"):
            self.blocks(program, mode, ALLOC_COUNT=str(counted))
            count = int(counted.read_text())
            self.assertGreater(count, 50)
            said = [self.blocks(program, mode, ALLOC_FAIL=str(number)) for number in range(1, count + 1)]
            self.assertEqual(set(said), {"done\n", "memory\n"})
            self.assertGreater(said.count("done\n"), said.count("memory\n"))

    def blocks(self, program: str, mode: str, **rule: str) -> str:
        with self.subTest(mode=mode, **rule):
            return self.ran(program, "blocks.img", mode, environment=self.environment(LD_PRELOAD=self.shim, **rule))
        return "failed\n"

    def test_a_stream_that_ended(self) -> None:
        program = self.compiled("ended.c")
        (self.folder / "room").mkdir()
        environment = self.environment(LD_PRELOAD=self.shim, ALLOC_MIN="16000000", ALLOC_FAIL="1")
        self.assertRegex(self.ran(program, "room", environment=environment), r"^ended: [1-9]\d* expected, 0 failed\n$")
