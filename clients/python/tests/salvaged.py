"""Files that are salvaged, with all their bytes at once: those of tests fit into memory."""

from __future__ import annotations

from typing import List, Tuple

from udfburn.protocol.units import Moment
from udfburn.reader.volume import Path
from udfburn.salvage.salvage import Salvage, SalvageOutcome
from udfburn.salvage.tree import Item
from udfburn.salvage.write import Output, WrittenFile


def judged(found: Salvage, item: Item) -> Tuple[SalvageOutcome, bytes]:
    """How a file was had, and its bytes."""
    pieces: List[bytes] = []
    return found.judged(item, pieces.append), b"".join(pieces)


def put_into(output: Output, key: int, target: Path, data: bytes, tail: str) -> List[WrittenFile]:
    """Writes a file with these bytes. It gives those that got their names meanwhile."""
    output.take(target[:-1], data)
    return output.name(key, target, Moment(0), tail)


__all__ = ["judged", "put_into"]
