"""The Python client over the library: clients/python/tests/over_library.py, with the library of this run."""
from __future__ import annotations

import os
import sys
import unittest

from library.building import REPOSITORY, built

os.environ["UDFBURN_LIBRARY"] = str(built().plain / "libudfburn.so.0")
# A user's own ledger is left alone.
os.environ["UDFBURN_LEDGER"] = "/nonexistent/ledger"
sys.path.insert(0, str(REPOSITORY / "clients" / "python"))

from tests import over_library  # noqa: E402


def load_tests(loader: unittest.TestLoader, *_: object) -> unittest.TestSuite:
    """All of them."""
    return loader.loadTestsFromModule(over_library)
