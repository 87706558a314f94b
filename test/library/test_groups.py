"""Messages that come together, by the tests of groups: in a program in C on the library, which does what `apply_groups` does, calls of a
group fail, power is lost at each of them, and it is killed."""
from __future__ import annotations

import unittest
from typing import Any

from faults import test_groups
from library.faulty import chosen

BYTES = ("test_files_of_all_sizes", "test_a_tree", "test_sessions", "test_no_commit_takes_no_sync", "test_appends", "test_long_groups",
         "test_no_room", "test_a_frame_that_is_too_long", "test_data_that_imitates_a_mark", "test_pieces_of_a_pipe", "test_at_random")
LOST = ("Power.test_each_call", "Power.test_a_failed_sync", "Power.test_a_cut_behind_marks", "Power.test_a_loss_behind_a_loss",
        "Kills.test_at_random")

def load_tests(*_: Any) -> unittest.TestSuite:
    # A handle whose file cannot be looked at gives no answer.
    del test_groups.ACTIONS["fstat"]
    return chosen(*("test_groups.SameBytes." + name for name in BYTES), "test_groups.Failures.test_each_call",
                  *("test_groups_lost." + name for name in LOST), is_shifted=False)
