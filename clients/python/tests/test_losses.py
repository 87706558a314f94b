"""Copies that lost many blocks: no commit has a wrong number, no whole file is called damaged, and no file of another commit is given."""

from __future__ import annotations

import json
import os
import random
import shutil
import tempfile
import unittest
from contextlib import redirect_stderr, redirect_stdout
from io import StringIO
from typing import Any, Dict, List, Optional, Tuple

from udfburn.commands import cli
from udfburn.image.check_data import check_data
from udfburn.image.coverage import Coverage
from udfburn.ledger.reading import ledger_to_read
from udfburn.protocol import Path, show
from udfburn.protocol.units import Address, Commit
from udfburn.reader import FileType, Medium, NoVolume, Volume
from udfburn.reader.entry import read_entry, write_entry
from udfburn.reader.numbering import Link, Span, greatest_at, number_links
from udfburn.salvage.salvage import FILE_DAMAGED, FILE_LOST, FILE_UNPROVED, FILE_WHOLE, Salvage, SalvageOutcome, target_of

from .losses import BLOCK, File, Loss, Sound, losses, write, write_map
from .programs import UDFBURN
from .salvaged import judged

RUNS = range(126) if os.environ.get("LARGE") else range(4)

Given = Dict[Path, Tuple[SalvageOutcome, bytes, Path]]
"""What was had of each file: how, its bytes, and the path at which it is written."""


@unittest.skipUnless(UDFBURN, "UDFBURN names the program")
class WithLosses(unittest.TestCase):
    """One volume, and copies of it."""

    room = ledger = ""
    sound: Sound

    @classmethod
    def setUpClass(cls) -> None:
        cls.room = tempfile.mkdtemp()
        cls.addClassCleanup(shutil.rmtree, cls.room)
        cls.ledger = os.path.join(cls.room, "ledger.sqlite")
        image = os.path.join(cls.room, "disc.img")
        write(image, cls.ledger, 7)
        cls.sound = Sound(image)
        cls.addClassCleanup(cls.sound.close)

    def put(self, loss: Loss) -> Tuple[str, str]:
        """A copy, and its map."""
        image = os.path.join(self.room, "copy.img")
        with open(image, "wb") as file:
            file.write(loss.image)
        write_map(image + ".map", len(loss.image), loss.unread)
        return image, image + ".map"

    def lost(self, *addresses: int) -> str:
        """A copy with zeros in some blocks."""
        image = bytearray(self.sound.image)
        for address in addresses:
            image[address * BLOCK : (address + 1) * BLOCK] = bytes(BLOCK)
        return self.put(Loss(bytes(image), (), set(addresses)))[0]

    def run_command(self, *words: str) -> Tuple[int, List[Dict[str, Any]], str]:
        """The status, the lines and the errors of a command."""
        output, errors = StringIO(), StringIO()
        with redirect_stdout(output), redirect_stderr(errors):
            status = cli.main([*words, "--json"])
        return status, [json.loads(line) for line in output.getvalue().splitlines()], errors.getvalue()


class Losing(WithLosses):
    """Random losses, with what must come out by the intact image."""

    def test_random_losses(self) -> None:
        for seed in RUNS:
            with self.subTest(seed=seed):
                self.one(losses(self.sound, seed), random.Random(seed))

    def one(self, loss: Loss, chance: random.Random) -> None:
        """One copy."""
        image, rescue = self.put(loss)
        with Medium(image, rescue) as medium:
            found = Salvage(medium, None, self.ledger)
            for link in found.chain.links:
                self.assertIn(link.address, self.sound.numbers)
                true = self.sound.numbers[link.address]
                self.assertTrue(link.numbers.low <= true <= link.numbers.high, (true, link))
            self.check_state(found, loss, self.sound.numbers[found.link.address])
            exact = [link.commit for link in found.chain.links if link.commit is not None]
            self.assertGreater(len(exact), len(self.sound.ends) // 4)
            links = len(found.chain.links)
            newest = self.sound.numbers[found.link.address]
        commit = chance.choice(exact)
        with Medium(image, rescue) as medium:
            self.check_state(Salvage(medium, commit, self.ledger), loss, commit)
        lines = self.run_command("log", image, "--map", rescue)[1][:-1]
        self.assertLessEqual(len(lines), 2 * links)
        if lines[0]["commit"] is not None:
            self.assertEqual(sum(line.get("lost", 0) for line in lines) + links, newest + 1)
        self.check_ledger(image, rescue, loss)

    def check_state(self, found: Salvage, loss: Loss, commit: int) -> None:
        """What is given back of a state."""
        wanted, given = self.sound.state(commit), self.given(found)
        data = {data: outcome.state for outcome, data, _ in given.values() if outcome.state != FILE_DAMAGED}
        for path, file in wanted.items():
            if not file.blocks & loss.lost:
                self.assertIn(file.data, data, f"{path} is whole, and comes out as {given.get(path, (None,))[0]}")
        for path, (outcome, read, target) in given.items():
            if target == path and path[0] != "lost+found" and outcome.state in (FILE_WHOLE, FILE_UNPROVED):
                self.check_file(path, wanted, read, outcome)

    def check_file(self, path: Path, wanted: Dict[Path, File], read: bytes, outcome: SalvageOutcome) -> None:
        """What has a file's own path has its bytes: the ledger has the digest of each."""
        self.assertIn(path, wanted, outcome)
        self.assertEqual(read == wanted[path].data, True, outcome)

    def given(self, found: Salvage) -> Given:
        """All files as they come out."""
        given: Given = {}
        for item in found.tree.items:
            if item.kind is not FileType.DIRECTORY:
                outcome, data = judged(found, item)
                if outcome.state != FILE_LOST:
                    given[item.path] = (outcome, data, target_of(item, outcome))
        return given

    def check_ledger(self, image: str, rescue: str, loss: Loss) -> None:
        """`check --data --ledger` calls no whole file other than it is, and passes over none that is not."""
        told: Dict[str, str] = {}
        with Medium(image, rescue) as medium, ledger_to_read(self.ledger, 10.0) as ledger:
            try:
                volume = Volume(medium)
                coverage = Coverage(volume, volume.state())
            except NoVolume:
                return
            if coverage.take_ledger(ledger, "") is None or () not in coverage.nodes:
                return
            check_data(coverage, (), lambda path, how, commit: told.update({path: how}))
            wanted = self.sound.state(self.sound.numbers[volume.table().address])
            nodes = coverage.nodes
        for path, file in wanted.items():
            if show(path) in told and path in nodes and nodes[path].address == file.entry and not file.blocks & loss.lost:
                self.assertIn("no chain of tables", told[show(path)])
            if path in nodes and file.blocks & loss.lost and nodes[path].data is not None:
                self.assertIn(show(path), told)


class Ledgers(WithLosses):
    """What a ledger knows of a copy."""

    def test_a_table_between_two_lost_ones(self) -> None:
        """Where the VAT ICB of one commit and the table of the next are lost, each other commit has its own number."""
        for commit in (40, 41, 100, len(self.sound.ends) - 3):
            image = self.lost(self.sound.ends[commit], *range(self.sound.starts[commit + 1], self.sound.ends[commit + 1]))
            status, lines, _ = self.run_command("log", image)
            self.assertEqual(status, 1)
            found = {line["address"]: line for line in lines if line["did"] == "commit" and line["address"] is not None}
            for true, address in enumerate(self.sound.ends):
                if address in found and found[address]["commit"] is not None:
                    self.assertEqual(found[address]["commit"], true)
            status, lines, _ = self.run_command("salvage", image, "--list", "--ledger", self.ledger)
            self.assertEqual((lines[-1]["damaged"], lines[-1]["lost"]), (0, 0))

    def test_copies_of_the_last_vat_icb(self) -> None:
        """A disc ends with copies of it: all are one table, also where its data is lost."""
        ends, starts = self.sound.ends, self.sound.starts
        last = read_entry(self.sound.image[ends[-1] * BLOCK :], ends[-1] - 257)[0]
        assert last is not None
        copies = b"".join(write_entry(last._replace(location=ends[-1] - 257 + index)) for index in range(1, 17))
        lost = bytearray(self.sound.image + copies)
        whole = self.run_command("log", self.put(Loss(bytes(lost), (), set()))[0])
        self.assertEqual((whole[0], whole[1][0]["commit"], whole[1][0]["address"], len(whole[1])), (0, len(ends) - 1, ends[-1] + 16, len(ends) + 1))
        lost[starts[-1] * BLOCK : ends[-1] * BLOCK] = bytes((ends[-1] - starts[-1]) * BLOCK)
        lines = [line for line in self.run_command("log", self.put(Loss(bytes(lost), (), set()))[0])[1] if line["did"] == "commit"]
        self.assertEqual([line["commit"] for line in lines], [None, *range(len(ends) - 2, -1, -1)])
        self.assertLessEqual(lines[0]["between"][0], len(ends) - 1)

    def test_a_gap_is_one_line(self) -> None:
        image = self.lost(*range(self.sound.starts[30], self.sound.ends[90] + 1))
        status, lines, _ = self.run_command("log", image)
        gaps = [line for line in lines if line.get("lost") and line["did"] == "commit"]
        self.assertEqual((status, [(line["lost"], line["between"]) for line in gaps]), (1, [(61, [30, 90])]))
        self.assertEqual(lines[-1]["lost"], 61)

    def test_check_names_what_no_chain_reaches(self) -> None:
        """A chain that ends at lost VAT ICBs: what older commits wrote is compared where their numbers are known, and else named."""
        state = self.sound.state(len(self.sound.ends) - 1)
        path, file = min(((path, file) for path, file in state.items() if len(file.blocks) > 3), key=lambda known: known[1].entry)
        wrote = next(number for number, end in enumerate(self.sound.ends) if end > file.entry)
        lost = [at for commit in (wrote, wrote + 1) for at in range(self.sound.starts[commit], self.sound.ends[commit] + 1)]
        image = self.lost(*lost)
        status, lines, _ = self.run_command("check", "--data", "--ledger", self.ledger, "--program", UDFBURN, image)
        self.assertEqual(status, 1)
        self.assertEqual(lines[-1]["data"]["damaged"], 0, lines)
        self.assertGreater(lines[-1]["data"]["by_ledger"], len(state) - 3)
        with open(image, "r+b") as changed:
            changed.seek(min(file.blocks) * BLOCK)
            changed.write(b"other bytes")
        status, lines, _ = self.run_command("check", "--data", "--ledger", self.ledger, "--program", UDFBURN, image)
        self.assertIn(show(path), [line.get("path") for line in lines if line["did"] == "failed"])

    def test_salvage_names_missing_commits(self) -> None:
        """An image that was cut, and one whose newest VAT ICB is lost: what was acknowledged and is not there is named, status 1."""
        ends = self.sound.ends
        cut = Loss(self.sound.image[: (ends[60] + 1) * BLOCK], (), set())
        for newest in (len(ends) - 2, 60):
            image = self.put(cut)[0] if newest == 60 else self.lost(ends[-1])
            status, lines, _ = self.run_command("salvage", image, "--list", "--ledger", self.ledger)
            missing = [line for line in lines if line["did"] == "missing"]
            self.assertEqual((status, len(missing), missing[0]["commit"], missing[0]["commits"]), (1, 1, newest + 1, len(ends) - 1 - newest))
            self.assertEqual(self.run_command("salvage", image, "--list", "--accept-unproved")[0], 0)

    def test_a_note_has_the_path(self) -> None:
        """A repaired entry with a wrong byte is named by its path."""
        path, file = next(iter(self.sound.state(len(self.sound.ends) - 1).items()))
        image = bytearray(self.sound.image)
        image[file.entry * BLOCK + 60] ^= 1
        copy = self.put(Loss(bytes(image), (), {file.entry}))[0]
        lines = self.run_command("salvage", copy, "--list")[1]
        self.assertIn((file.entry, show(path)), [(line["block"], line["path"]) for line in lines if line["did"] == "structure"])


class Numbering(unittest.TestCase):
    """The commits of links, by what tables say."""

    def spans(self, *links: Tuple[int, Optional[int], bool]) -> List[Span]:
        return [link.numbers for link in number_links([Link(Address(at), None, None if said is None else Commit(said), follows) for at, said, follows in links])]

    def test_by_links(self) -> None:
        """A number goes along links both ways, and most of a row counts."""
        self.assertEqual(self.spans((900, None, True), (800, 7, True), (700, None, True)), [(8, 8), (7, 7), (6, 6)])
        self.assertEqual(self.spans((900, 8, True), (800, 9, True), (700, 6, False)), [(8, 8), (7, 7), (6, 6)])
        self.assertEqual(self.spans((900, 8, True), (800, 9, False)), [(1, 319), (0, 269)])

    def test_by_limits(self) -> None:
        """Between two that are known, and by the place on the medium."""
        self.assertEqual(self.spans((900, 13, False), (800, None, False), (700, 8, False)), [(13, 13), (9, 12), (8, 8)])
        self.assertEqual(self.spans((900, 10, False), (800, None, False), (700, 8, False)), [(10, 10), (9, 9), (8, 8)])
        self.assertEqual(self.spans((900, None, False), (300, 3, False)), [(4, greatest_at(Address(900))), (3, 3)])
        self.assertEqual(self.spans((900, 10, False), (800, None, False), (790, None, False), (700, 8, False))[1:3], [(8, 10), (8, 10)])

    def test_what_cannot_be(self) -> None:
        """Commits go up with addresses, and each takes two blocks."""
        self.assertEqual(self.spans((900, 5, False), (800, 9, True), (700, 8, False)), [(10, 319), (9, 9), (8, 8)])
        self.assertEqual(self.spans((900, 5, False), (800, 9, False)), [(1, 319), (0, 269)])
        self.assertEqual(self.spans((270, 9, False)), [(0, 4)])


if __name__ == "__main__":
    unittest.main()
