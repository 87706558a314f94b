"""The picture of a medium."""

from __future__ import annotations

import os
import unittest
from xml.etree import ElementTree

from udfburn.image import map as picture
from udfburn.image.past import LoggedCommit
from udfburn.protocol.units import Address, Commit

from .programs import UDFBURN, WithPrograms

SVG = "{http://www.w3.org/2000/svg}"


def texts(tree: ElementTree.Element) -> str:
    return "\n".join("".join(element.itertext()) for element in tree.iter() if element.tag in (f"{SVG}text", f"{SVG}title"))


class Drawn(unittest.TestCase):
    def medium(self, commits: int, capacity: int) -> picture.Picture:
        known = [LoggedCommit(Commit(0), Address(261), 0, 1)]
        known += [LoggedCommit(Commit(index), Address(261 + 5 * index), index, 1) for index in range(1, commits + 1)]
        return picture.Picture("disc.img", "A < B & C", capacity, known[-1].address + 1, known)

    def test_each_block_is_of_one_run(self) -> None:
        for commits, capacity in ((0, 512), (1, 512), (50, 600), (300, 3000), (30000, 450_000)):
            medium = self.medium(commits, capacity)
            runs = picture.runs_of(medium)
            self.assertEqual(runs[0].begin, 0)
            self.assertEqual(runs[-1].end, capacity)
            self.assertTrue(all(before.end == after.begin for before, after in zip(runs, runs[1:])))
            self.assertEqual(len(runs), commits + 2)

    def test_it_is_a_picture(self) -> None:
        for commits, capacity in ((0, 512), (50, 600), (300, 3000), (30000, 450_000)):
            drawn = picture.svg_of(self.medium(commits, capacity))
            tree = ElementTree.fromstring(drawn)
            told = texts(tree)
            self.assertIn("A < B & C", told)
            self.assertIn(f"{capacity - 262 - 5 * commits:,} blocks", told)
            self.assertLess(len(drawn), 2_000_000)
            width, height = float(tree.get("width") or 0), float(tree.get("height") or 0)
            for box in tree.iter(f"{SVG}rect"):
                x, y = float(box.get("x", 0)), float(box.get("y", 0))
                self.assertTrue(0 <= x and x + float(box.get("width", 0)) <= width + 1 and 0 <= y and y + float(box.get("height", 0)) <= height + 1)

    def test_no_label_is_cut(self) -> None:
        """By the widths of DejaVu Sans, which are larger than those of most: 0.636 of the points for a digit, 0.318 for a comma."""
        for commits, capacity in ((0, 512), (300, 3000), (30000, 450_000), (89_000, 450_000)):
            tree = ElementTree.fromstring(picture.svg_of(self.medium(commits, capacity)))
            for element in tree.iter(f"{SVG}text"):
                words, x, points = element.text or "", float(element.get("x", 0)), float(element.get("font-size", 0))
                if words.replace(",", "").isdecimal():
                    width = points * sum(0.318 if letter == "," else 0.636 for letter in words)
                    left = {"end": x - width, "middle": x - width / 2}.get(element.get("text-anchor", ""), x)
                    self.assertTrue(left >= 4 and left + width <= picture.WIDTH - 4, words)

    def test_a_commit_that_was_cut(self) -> None:
        medium = self.medium(3, 512)
        cut = picture.Picture(medium.name, medium.label, medium.capacity, medium.written + 4, medium.commits)
        self.assertIn("cut: 277 to 280", [run.text for run in picture.runs_of(cut)][-2])


class OfAnImage(WithPrograms):
    capacity = 3000

    def test_by_the_command(self) -> None:
        client = self.on_image()
        client.mkdir("/d")
        client.create("/d/a", b"x" * 5000)
        client.close()
        drawn = os.path.join(self.room, "map.svg")
        self.run_command("map", self.image, drawn, where=[])
        told = texts(ElementTree.parse(drawn).getroot())
        for line in self.udfburn("log", self.image).decode().splitlines()[:-1]:
            number, address, files, directories = map(int, line.split())
            plural = "directory" if directories == 1 else "directories"
            self.assertRegex(told, f"commit {number}: blocks \\d+ to {address}, .* {files} files?, {directories} {plural}")
        self.assertIn("TEST", told)
        medium = picture.read_medium(self.image, UDFBURN)
        self.assertEqual((medium.capacity, medium.written, len(medium.commits)), (3000, os.path.getsize(self.image) // 2048, 3))


if __name__ == "__main__":
    unittest.main()
