"""Power lost at every call of a program in C on the library: no acknowledged file is lost."""
from __future__ import annotations

import unittest
from typing import Any

from library.faulty import chosen


def load_tests(*_: Any) -> unittest.TestSuite:
    return chosen("test_power.Power.test_a_stream_of_apply", "test_power.Power.test_a_failed_sync", "test_power.Power.test_a_failed_write",
                  "test_power.Itself.test_a_sync_that_lies_loses_a_file")
