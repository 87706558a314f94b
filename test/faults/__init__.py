"""Faults put under the built programs: failing calls, kills, lost power, odd files. See __main__.py for how they are run."""
