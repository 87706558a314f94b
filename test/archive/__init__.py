"""The archive over many volumes, tried with real programs: see test/archive.sh."""
