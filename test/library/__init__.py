"""Tests of the C library: what packaging/library/build.sh makes, from C, C++ and Python."""
