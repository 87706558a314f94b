"""The command `check`: whether an image is what it should be."""

from __future__ import annotations

import argparse
import os
import re
from typing import TYPE_CHECKING, List, Optional, Tuple

from ..base.errors import Damaged, ProgramFailed, UsageError
from ..base.progress import Progress, plural
from ..image.second_opinion import opinion_of, tell_opinion
from ..protocol import as_text, shown
from ..wire.connection import find_program, run_program
from .arguments import command, commit_number
from .check_ledger import data_words, read_image
from .common import progress_of

if TYPE_CHECKING:
    from ..image.check_data import Result
    from .arguments import Subs

CAUSES = {
    21: "its tag: the block changed, or is not the one that was written there",
    22: "its strategy is not that of this format",
    23: "its file type is not a directory, a file or a table",
    24: "a field with a fixed value has another one",
    25: "its size, blocks or lengths do not agree, or exceed the limits",
    26: "its extent is not valid",
    27: "a byte after the descriptor is not zero",
    31: "an identifier's tag, CRC or fixed field is wrong",
    32: "the parent directory is not named first, or is named twice",
    33: "bytes that are not a name, or another encoding of one",
    34: "a name occurs twice",
    35: "an identifier crosses the end of its block",
    36: "padding is not as the layout has it",
    37: "the data ends inside an identifier or goes on after the last one",
    41: "a length, the reserved field, or the number of the entry before",
    42: "the label is not valid",
    43: "a revision of UDF is not 2.01",
    44: "the clients' records are wrong",
    45: "a client has two records",
    46: "a block number is not below the table's own, or the root is missing",
    47: "the count of entries or the next unique ID is wrong",
}
"""What the program's causes mean: 21 to 27 of a file entry, 31 to 37 of a directory's data, 41 to 47 of a table's data."""


def add_commands(subs: Subs) -> None:
    """The words of this command."""
    words = command(
        subs, "check", check, "check an image",
        "The program udfburn examines every node after each commit, and an independent reader examines the newest state. With --data,"
        " every file is compared with the digests of what was stored. The image is only read.", volume=False,
    )
    words.add_argument("image_path", metavar="IMAGE", help="the image to check")
    words.add_argument("path", nargs="?", metavar="PATH", help="with --data: the file or directory to read (default: /)")
    words.add_argument("--data", action="store_true", help="also read every byte of each file, and compare it with the manifests on the volume and with the ledger")
    words.add_argument("--ledger", metavar="LEDGER", help="a ledger that was used with this volume: its last commit must be there, and with --data its digests are compared (default with --data: the user's own, if it exists)")
    words.add_argument("--expect", metavar="COMMIT", type=commit_number, help="report an error unless the volume has this commit")


def check(arguments: argparse.Namespace) -> int:
    """Checks an image."""
    progress = progress_of(arguments)
    image = arguments.image_path
    os.stat(image)
    if arguments.path is not None and not arguments.data:
        raise UsageError("PATH goes with --data: every structure is looked at in any case")
    status, count, words = check_twice(image, arguments, progress)
    result: Optional[Result] = None
    if arguments.data or arguments.ledger:
        checked = read_image(arguments, progress)
        result = checked.result
        if checked.acknowledged is not None and count < checked.acknowledged:
            status = progress.fail(missing_commits(image, count, checked.acknowledged, "was acknowledged to the ledger"))
    if arguments.expect is not None and count < arguments.expect:
        status = progress.fail(missing_commits(image, count, arguments.expect, "was expected"))
    words += [data_words(result)] if result is not None else []
    progress.result(f"{shown(image)}: {'; '.join(words) or 'is damaged'}", path=as_text(image), commits=count, data=vars(result) if result is not None else None)
    return 1 if result is not None and result.damaged else status


def check_twice(image: str, arguments: argparse.Namespace, progress: Progress) -> Tuple[int, int, List[str]]:
    """Checks every structure by the program, and the newest state by the client's own reader too: the status, the commits that the
    program found, and what is said."""
    status, count, words, known = 0, None, [], ""
    is_unchecked = False
    try:
        count = check_structure(image, find_program(arguments.program))
        words.append(f"every structure of {plural(count, 'commit', 'commits')} is as it must be")
    except (Damaged, UsageError) as error:
        # What can be read is looked at all the same, by a reader that needs no program.
        status, known = progress.fail(error), str(error)
        is_unchecked = isinstance(error, UsageError)
    opinion = opinion_of(image)
    found = tell_opinion(image, opinion, known, progress)
    if is_unchecked and not found:
        words.append(f"its newest state, after commit {opinion.commit}, is as it must be; the earlier states were not checked")
    status = found or status
    return status, opinion.commit if count is None else count, words


def check_structure(image: str, program: str) -> int:
    """How many commits an image has, all of which the program found sound; or `Damaged`, in words."""
    try:
        line = run_program(program, ["check", os.path.abspath(image)])
    except ProgramFailed as error:
        raise Damaged(f"{shown(image)}: {in_words(str(error))}") from error
    return int(line.split()[1])


def in_words(line: str) -> str:
    """What a line of the program says."""
    found = re.search(r"67 Damaged (\d+) cause (\d+)|67 Damaged block (\d+) cause (\d+)", line)
    if found:
        block, cause = (int(number) for number in found.groups() if number is not None)
        kind = {2: "a file entry or the file set descriptor", 3: "the data of a directory", 4: "the data of a table"}.get(cause // 10, "a structure")
        return f"block {block}: {kind} is damaged, cause {cause}: {CAUSES.get(cause, 'see docs/DAMAGE.md')}"
    if "66 NotFormatted" in line:
        return "holds no volume: no VAT ICB is found in it"
    if "67 Damaged" in line:
        return f"is damaged ({line})"
    return line


def missing_commits(image: str, count: int, wanted: int, why: str) -> str:
    """What is said where the newest commits are not there."""
    return (
        f"{shown(image)}: its newest commit is {count}, and commit {wanted} {why}: the last block of a later commit is damaged, or this is"
        " an older copy"
    )


__all__ = ["add_commands", "check", "check_structure"]
