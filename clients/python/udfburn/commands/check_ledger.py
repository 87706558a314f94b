"""What `check` needs of a ledger and of an image beside the program: the ledger, where there is one, and each file's bytes."""

from __future__ import annotations

import argparse
from contextlib import ExitStack, contextmanager
from typing import TYPE_CHECKING, Iterator, NamedTuple, Optional

from ..base.errors import Damaged, FileDiffers, LedgerBusy, LedgerError
from ..base.progress import Progress, plural, printable, size
from ..protocol import escaped, path_of, shown
from ..protocol.units import Commit
from ..wire.endpoint import image_key

if TYPE_CHECKING:
    from ..image.check_data import Result
    from ..image.coverage import Coverage
    from ..ledger.ledger import Ledger

LEDGER_WAIT = 10.0
"""Seconds for which a ledger is awaited that was named."""


class Checked(NamedTuple):
    """What was found: the files' counts, the volume's newest commit, and the last one that was acknowledged to the ledger."""

    result: Optional[Result]
    commit: Commit
    acknowledged: Optional[int]


@contextmanager
def ledger_of(arguments: argparse.Namespace, progress: Progress) -> Iterator[Optional[Ledger]]:
    """The ledger that is named; else the user's own, where data is checked and it is there and free."""
    from ..ledger.file import default_path, is_ledger
    from ..ledger.reading import ledger_to_read

    named: Optional[str] = arguments.ledger
    path = named or default_path()
    if not is_ledger(path):
        if named:
            raise LedgerError(f"{shown(path)}: there is no ledger")
        yield None
        return
    with ExitStack() as stack:
        ledger: Optional[Ledger] = None
        try:
            ledger = stack.enter_context(ledger_to_read(path, LEDGER_WAIT if named else 0.0))
        except LedgerBusy:
            if named:
                raise
            progress.note(f"{shown(path)}: another process has this ledger, so only the manifests on the volume are compared", did="note")
        yield ledger


def read_image(arguments: argparse.Namespace, progress: Progress) -> Checked:
    """Reads an image by the client's own reader: its newest commit, what a ledger expects of it, and with --data each file."""
    from ..image.coverage import Coverage
    from ..reader import Medium, NoVolume, Volume

    image = arguments.image_path
    with ledger_of(arguments, progress) as ledger, Medium(image) as medium:
        try:
            volume = Volume(medium)
            coverage = Coverage(volume, volume.state())
        except NoVolume as error:
            raise Damaged(f"{error}: 'udfburn-client salvage' gives back what can be read") from error
        acknowledged = expected_of(coverage, ledger, image, progress) if ledger is not None else None
        result = check_files(coverage, arguments, progress) if arguments.data else None
        return Checked(result, volume.table().commit, acknowledged)


def expected_of(coverage: Coverage, ledger: Ledger, image: str, progress: Progress) -> Optional[int]:
    """The last commit that was acknowledged to a ledger, whose digests are compared then; None where it does not know the volume."""
    known = coverage.take_ledger(ledger, image_key(image))
    if known is None:
        progress.note(f"{shown(ledger.path)}: has sent nothing to this volume that shows it to be the ledger's", did="note")
        return None
    return ledger.last_commit(known)


def check_files(coverage: Coverage, arguments: argparse.Namespace, progress: Progress) -> Result:
    """Reads each file at or below the path that is asked for."""
    from ..image.check_data import check_data

    def found(path: str, how: str, commit: Optional[Commit]) -> None:
        text = f"{escaped(path)}: {printable(how)}" + (f" (commit {commit})" if commit is not None else "")
        progress.fail(FileDiffers(text, path, commit))

    return check_data(coverage, path_of(arguments.path or "/"), found)


def data_words(result: Result) -> str:
    """What was found of the files, in a line."""
    words = f"{plural(result.files, 'file', 'files')}, {size(result.bytes)}: "
    words += "all that digests cover are as they were stored" if not result.damaged else f"{plural(result.damaged, 'file is', 'files are')} not as it should be"
    words += f"; {result.by_ledger} by the ledger, {result.by_manifest} by manifests on the volume"
    return words + f", and no digest covers {plural(result.uncovered, 'file', 'files')}"


__all__ = ["Checked", "data_words", "read_image"]
