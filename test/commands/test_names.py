"""The number and the name of each fault, which stand twice in the sources.

The programs print those of `crates/programs/src/fault.rt`, which is proved. Elsewhere a derived `Display` shows a fault, of which no
clause speaks. The scenarios of `crates/scenarios/data` see that it shows its text, also that of a fault with fields.
"""
from __future__ import annotations

import re
import unittest
from pathlib import Path

CRATES = Path(__file__).resolve().parents[2] / "crates"


def shown(source: str) -> dict[str, str]:
    """The text of each variant, by which `Display` shows it."""
    return {variant: text for text, variant in re.findall(r'#\[error\("([^"]+)"\)\]\s+(\w+)', (CRATES / source).read_text())}


class Names(unittest.TestCase):
    def setUp(self) -> None:
        self.source = (CRATES / "programs/src/fault.rt").read_text()

    def printed(self, fault: str) -> dict[str, str]:
        """The text of each variant, which the programs print."""
        return {variant: text for variant, text in re.findall(fault + r'::(\w+)(?: \{[^}]*\})?\)? => "([^"]+)"', self.source)}

    def test_a_fault_of_a_volume(self) -> None:
        names = self.printed("StoreFault")
        place = "".join(re.findall(r'errors\.put\(b"( \w+ )"\)', self.source))
        self.assertEqual(place, " block  cause ")
        names["Damaged"] += " block {block} cause {cause}"
        self.assertEqual(len(names), 14)
        self.assertEqual(names, shown("recover/src/fault.rt"))

    def test_a_fault_of_a_stream(self) -> None:
        names = self.printed("ServeFault")
        self.assertEqual(len(names), 3)
        self.assertEqual(names, shown("engine/src/serving.rt"))
