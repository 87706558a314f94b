"""A program in C on the library that is killed before and after each of its calls."""
from __future__ import annotations

import unittest
from typing import Any

from library.faulty import chosen


def load_tests(*_: Any) -> unittest.TestSuite:
    # The call by which the file is set to its length is killed too.
    return chosen("test_kills.Kills.test_a_stream_of_apply", is_shifted=False)
