"""What the commands do that close, check and repair volumes."""

from __future__ import annotations

import argparse
from contextlib import closing
from typing import Container, List, Sequence, Tuple

from ..wire.operations import now
from . import same_rows
from .catalogue import STATE_CLOSED, STATE_CLOSING, STATE_FULL, STATE_RETIRED, Catalogue, VolumeRow, image_of
from .check import CheckOptions, Checker, Repairer, chosen, oldest
from .claims import claims_of
from .close import Closer
from .config import Config, config_of
from .errors import ArchiveError, Claimed
from .open_copies import OpenCopies
from .parity import require_program
from .status import HURT, age, incomplete, is_lost, lines, loss, needed_lines
from .tell import Tell, plural, tell_of


def to_close(config: Config, catalogue: Catalogue, names: List[str], full: bool) -> List[VolumeRow]:
    """The volumes that are closed or sent."""
    rows = catalogue.volumes()
    if names:
        return chosen(rows, names, CheckOptions())
    own = [row for row in rows if row.holder == config.id]
    states = (STATE_FULL, STATE_CLOSING, STATE_CLOSED) if full else ("open", STATE_FULL, STATE_CLOSING, STATE_CLOSED)
    return [row for row in own if row.state in states and (row.files or row.state != "open")]


def close(arguments: argparse.Namespace) -> int:
    """Closes volumes."""
    config, tell = config_of(arguments), tell_of(arguments)
    if arguments.parity is not None:
        require_program()
    with Catalogue(config) as catalogue, closing(claims_of(catalogue.base, config.path("locks"), config.catalogue)) as claims:
        closer = Closer(config, catalogue, claims, tell, arguments.without_damaged, arguments.parity)
        rows = to_close(config, catalogue, arguments.volume, arguments.full)
        tell.begin(0, sum(map(closer.bytes_of, rows)))
        for row in rows:
            try:
                closer.run(row)
            except (ArchiveError, OSError) as error:
                if isinstance(error, Claimed) and not arguments.volume:
                    left = "left open" if row.state != STATE_CLOSED else "left to that one"
                    tell.note(f"{error} (it is {left})", did=left, volume=row.label)
                    continue
                closer.failures.append(f"{row.label}: {error}")
    words = f"closed {plural(closer.closed, 'volume', 'volumes')}"
    words += f", made {plural(closer.copied, 'copy', 'copies')}" if config.copies else ""
    return ended(tell, words, closer.failures, closed=closer.closed, copied=closer.copied)


def copy(arguments: argparse.Namespace) -> int:
    """Copies what open volumes have more than their copies."""
    config, tell = config_of(arguments), tell_of(arguments)
    with Catalogue(config) as catalogue, closing(claims_of(catalogue.base, config.path("locks"), config.catalogue)) as claims:
        copies = OpenCopies(config, catalogue, claims, tell)
        with closing(copies.places):
            copies.run()
    return ended(tell, f"made or continued {plural(copies.made, 'copy', 'copies')}", copies.failures, copied=copies.made)


def check(arguments: argparse.Namespace) -> int:
    """Checks volumes, or a disc."""
    if arguments.disc is not None or arguments.device is not None:
        from .discs import check_disc

        return check_disc(arguments)
    config, tell = config_of(arguments), tell_of(arguments)
    stale = None if arguments.stale is None else age(arguments.stale)
    options = CheckOptions(arguments.data, arguments.remotes, arguments.sample, arguments.oldest)
    with Catalogue(config) as catalogue:
        checker = Checker(config, catalogue, tell, options)
        rows = chosen(catalogue.volumes(), arguments.volume, options)
        checker.run(oldest(config, catalogue, rows, options) if options.oldest else rows)
        if options.remotes:
            check_open(checker, arguments.volume)
        places = catalogue.put_away()
        for row in checker.away:
            if is_lost(row, config, False, places.get(row.number)):
                checker.bad.add((row.label, ""))
                checker.failures.append(f"{row.label}: {loss(row, catalogue.copies(row.number), config)}")
            elif arguments.volume:
                checker.failures.append(f"{row.label}: is not at hand: put its image into the folder 'closed' of the archive")
            else:
                where = f" (put away at {places[row.number]})" if row.number in places else ""
                tell.note(f"{row.label}: is not at hand{where}, and was not checked", did="away", volume=row.label, place=places.get(row.number))
        intact = not checker.failures
        if stale is not None:
            checker.failures += needed_besides(config, catalogue, stale, checker.bad)
    whole = not (arguments.volume or checker.away or options.oldest or options.sample is not None)
    words = f"checked {plural(checker.volumes, 'volume', 'volumes')}"
    words += f" and {plural(checker.files, 'file', 'files')}" if options.data else ""
    words += f", {plural(checker.copies, 'copy', 'copies')}" if options.remotes else ""
    words += f"; {plural(len(checker.away), 'volume is', 'volumes are')} not at hand" if checker.away else ""
    if intact and checker.volumes + checker.copies:
        words += ": everything is intact" if whole else ": what was looked at is intact"
    return ended(
        tell, words, checker.failures, volumes=checker.volumes, files=checker.files, copies=checker.copies, away=[row.label for row in checker.away],
    )


def check_open(checker: Checker, names: Sequence[str]) -> None:
    """Compares the copies of open volumes: of those that are named, or of all."""
    config, catalogue = checker.config, checker.catalogue
    with closing(claims_of(catalogue.base, config.path("locks"), config.catalogue)) as claims:
        copies = OpenCopies(config, catalogue, claims, checker.tell)
        copies.check([row for row in catalogue.volumes() if not names or row.label in names])
    checker.bad |= copies.said
    checker.copies += copies.made
    checker.failures += copies.failures


def needed_besides(config: Config, catalogue: Catalogue, stale: int, said: Container[Tuple[str, str]]) -> List[str]:
    """A line for each thing that needs somebody, but for damage that was said already: of an image, or of a copy on a remote."""
    found = [
        line._replace(needs=[need for need in line.needs if need.kind not in HURT or (line.row.label, need.remote) not in said])
        for line in lines(config, catalogue, stale)
    ]
    return needed_lines(found, incomplete(catalogue))


def repair(arguments: argparse.Namespace) -> int:
    """Repairs volumes, from remotes or from a disc."""
    if arguments.disc is not None or arguments.device is not None:
        from .discs import repair_disc

        return repair_disc(arguments)
    config, tell = config_of(arguments), tell_of(arguments)
    with Catalogue(config) as catalogue, closing(claims_of(catalogue.base, config.path("locks"), config.catalogue)) as claims:
        rows = catalogue.volumes()
        copies = {copy.volume for copy in catalogue.copies() if copy.trouble and copy.disc() is None}
        places = catalogue.put_away()

        def needs(row: VolumeRow) -> bool:
            lost = is_lost(row, config, image_of(config, row) is not None, places.get(row.number))
            return row.state != STATE_RETIRED and (bool(row.trouble) and catalogue.is_here(row) or row.number in copies or lost)

        found = chosen(rows, arguments.volume, CheckOptions()) if arguments.volume else list(filter(needs, rows))
        repairer = Repairer(config, catalogue, claims, tell)
        repairer.run(found)
    words = f"repaired {plural(repairer.repaired, 'image or copy', 'images or copies')} of {plural(len(found), 'volume', 'volumes')}"
    return ended(tell, words, repairer.failures, repaired=repairer.repaired, volumes=len(found))


def adopt(arguments: argparse.Namespace) -> int:
    """Takes a volume over."""
    from .adopt import take_over as take

    config, tell = config_of(arguments), tell_of(arguments)
    with Catalogue(config) as catalogue, closing(claims_of(catalogue.base, config.path("locks"), config.catalogue)) as claims:
        (row,) = chosen(catalogue.volumes(), [arguments.volume], CheckOptions())
        failures: List[str] = []
        row = take(config, catalogue, claims, row, arguments.image, tell, failures)
    words = f"took over {row.label} with {plural(row.files, 'file', 'files')}"
    return ended(tell, words, failures, volume=row.label, files=row.files, state=row.state)


def put_away(arguments: argparse.Namespace) -> int:
    """Keeps where the user has the image of a closed volume."""
    config, tell = config_of(arguments), tell_of(arguments)
    with Catalogue(config) as catalogue:
        (row,) = chosen(catalogue.volumes(), [arguments.volume], CheckOptions())
        if row.state != STATE_CLOSED:
            raise ArchiveError(f"{row.label}: is not closed, and would be missed where it is filled: 'close {row.label}' first")
        catalogue.save_place(row.number, arguments.place, now())
    words = f"{row.label} is put away at {arguments.place}" if arguments.place is not None else f"{row.label} is not put away any more"
    tell.result(words, volume=row.label, place=arguments.place)
    return 0


def retire(arguments: argparse.Namespace) -> int:
    """Takes a closed volume out of use."""
    config, tell = config_of(arguments), tell_of(arguments)
    with Catalogue(config) as catalogue, closing(claims_of(catalogue.base, config.path("locks"), config.catalogue)) as claims:
        (row,) = chosen(catalogue.volumes(), [arguments.volume], CheckOptions())
        claims.volume(row.number, row.label)
        row = catalogue.volume(row.number) or row
        if row.state != STATE_CLOSED:
            raise ArchiveError(f"{row.label}: is not closed, so it cannot be retired")
        if not row.trouble and image_of(config, row) is not None:
            raise ArchiveError(f"{row.label}: is at hand, and no damage is known: 'check --data {row.label}' looks for it")
        catalogue.save(row._replace(state=STATE_RETIRED))
        others = same_rows.count_named(catalogue.base, row.number)
    words = f"retired {row.label}: 'add' stores its files again where their sources are there"
    words += f", and {plural(others, 'other file', 'other files')} that had the same bytes" if others else ""
    tell.result(words, volume=row.label, files=row.files, others=others)
    return 0


def ended(tell: Tell, words: str, failures: List[str], **fields: object) -> int:
    """Tells the end of a command, and gives its status."""
    for line in failures:
        tell.fail(line)
    words += f"; {plural(len(failures), 'failure', 'failures')}" if failures else ""
    tell.result(words, **fields)
    return 1 if failures else 0
