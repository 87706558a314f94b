"""Calls of a program in C on the library that fail, are cut short or come in the wrong order, and names that a file loses."""
from __future__ import annotations

import unittest
from typing import Any

from library.faulty import chosen

FAILURES = ("test_each_write", "test_each_sync", "test_short_and_interrupted", "test_several_in_a_row", "test_for_ever")
NAMES = ("test_deleted", "test_replaced", "test_cut", "test_longer", "test_moved_away", "test_another_name", "test_in_the_middle_of_a_commit",
         "test_queries_behind_it", "test_it_is_the_name_that_counts")
ORDER = ("Order.test_each_commit_of_apply", "Order.test_each_commit_of_the_daemon", "Order.test_a_stream_of_commits",
         "Order.test_a_commit_over_a_gap", "Order.test_a_query", "Order.test_the_first_commit_behind_a_kill", "Order.test_a_format",
         "Order.test_a_format_in_another_folder", "Order.test_an_image_that_was_copied", "Itself.test_a_sync_that_lies_is_seen",
         "Itself.test_a_file_that_is_not_forgotten_is_seen")


def load_tests(*_: Any) -> unittest.TestSuite:
    return chosen(*("test_failures.Failures." + name for name in FAILURES), *("test_names.Names." + name for name in NAMES),
                  *("test_order." + name for name in ORDER))
