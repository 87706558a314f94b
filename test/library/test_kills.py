"""A program in C on the library that is killed at each call, and started again."""
from __future__ import annotations

import unittest
from typing import Any

from library.faulty import chosen


def load_tests(*_: Any) -> unittest.TestSuite:
    return chosen(*("test_kills.Kills." + name for name in ("test_killed_twice", "test_at_the_cut", "test_a_daemon",
                                                            "test_an_answer_that_was_not_sent_whole", "test_the_log_is_one")))
