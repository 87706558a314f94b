"""The limits of a volume and of its protocol."""

from __future__ import annotations

BLOCK = 2048
"""Bytes of a block."""

PAYLOAD = 1_114_112
"""Bytes of a frame's payload, at most."""

FILE = 1_048_576
"""Bytes of a file in one message, at most: a longer one is read piece by piece."""

GREATEST_FILE = 921_698_304
"""Bytes of a file, at most: no volume has room for quite as many."""

MOMENT = 4_102_444_800_000_000
"""The first moment that cannot be said: 2100-01-01 UTC, in microseconds from 1970."""

PATH_NAMES = 255
"""Names in a path that can be said, at most."""

DEPTH = 16
"""Names in a path of the tree, at most."""

NAMES = 512
"""Names in a directory, at most."""

NODES = 4096
"""Files and directories of a volume, the root among them, at most."""

CLIENTS = 64
"""Clients that a volume keeps for its life, at most."""

REPLIES = 4
"""The last replies of a client that a volume keeps."""

SPELLED = 255
"""Bytes of a name as it is spelled on the medium, at most."""

CAPACITY = (512, 450_000)
"""Blocks of a volume, at least and at most."""

U64 = (1 << 64) - 1
"""The greatest number of 8 bytes."""

LINUX_CLIENTS = 38
"""Clients of a volume that Linux mounts, at most: with more the head of its table is longer than a block."""
