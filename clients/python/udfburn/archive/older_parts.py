"""Files in parts of a mebibyte, as archives had them whose volumes could hold no larger files: read here, and written by nobody.

Their parts are `=p0/00000000` and on in the folder of the file, numbered through, with 500 in each folder. `=file.txt` says in mebibytes
where those begin that are on the volume.
"""

from __future__ import annotations

import re
from typing import Mapping, Optional, Tuple

from ..protocol import Path, limits

PART_FOLDER = re.compile(r"=p(0|[1-9][0-9]*)")


def older_part(names: Path) -> Tuple[Path, Optional[int]]:
    """The stored names of a file, and the byte with which the part of it begins that has these names; None where they are no part's."""
    if len(names) < 2 or not PART_FOLDER.fullmatch(names[-2]) or not (names[-1].isascii() and names[-1].isdigit()):
        return names, None
    return names[:-2], int(names[-1]) * limits.FILE


def older_start(fields: Mapping[str, str]) -> Optional[str]:
    """What a description says of the first part that is on its volume, in mebibytes; None where it is none of such a file."""
    return fields.get("first part")


__all__ = ["older_part", "older_start"]
