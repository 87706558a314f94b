"""The built programs from outside, byte by byte: see test/commands.sh."""
