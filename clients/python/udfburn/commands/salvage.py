"""The commands `salvage` and `log`: what can be had of a damaged volume, and its chain of tables."""

from __future__ import annotations

import argparse
from collections import Counter
from contextlib import suppress
from typing import TYPE_CHECKING, Callable, Counter as Counts, Dict, Iterator, List, Optional

from ..base.beneath import mode_for
from ..base.disk import is_full
from ..base.errors import DiskFull, UsageError
from ..base.progress import Progress, of_bytes, plural, size
from ..protocol import as_text, escaped, shown
from ..protocol.units import Commit
from .arguments import add_output, commit_number

if TYPE_CHECKING:
    from ..reader import Volume
    from ..reader.chain import Link, Span
    from ..salvage.salvage import Salvage, SalvageOutcome
    from .arguments import Subs


def add_commands(subs: Subs) -> None:
    """The words of these commands."""
    text = "copy everything that can be read out of a volume, even a damaged one"
    words = subs.add_parser(
        "salvage", help=text,
        description=f"{text[0].upper()}{text[1:]}. Reads an image, a device or a disc without the program udfburn, copies each file that can be read,"
        " and names each one that cannot. Nothing is written to IMAGE. The status is 0 only if each file has the digest that is kept of it.",
    )
    words.set_defaults(run=salvage)
    add_image(words)
    words.add_argument("folder", metavar="DIR", nargs="?", help="the folder to write into; no existing file is replaced")
    words.add_argument("--list", action="store_true", help="only report, write nothing")
    words.add_argument("--at", metavar="COMMIT", type=commit_number, help="take the state after this commit instead of the newest")
    words.add_argument("--ledger", metavar="PATH", help="the ledger that stored the files: compare its digests, too")
    words.add_argument("--accept-unproved", action="store_true", help="status 0 even if no digest covers a file")
    add_output(words)
    text = "print the commits of an image, even a damaged one"
    words = subs.add_parser(
        "log", help=text,
        description=f"{text[0].upper()}{text[1:]}. Prints a line for each commit, the newest first, in the form of 'udfburn log'. Broken ones are marked,"
        " and the status is 1 then.",
    )
    words.set_defaults(run=log)
    add_image(words)
    add_output(words)


def add_image(words: argparse.ArgumentParser) -> None:
    """The words that name what is read."""
    words.add_argument("image_path", metavar="IMAGE", help="an image, a block device or a disc (/dev/sr0)")
    words.add_argument("--map", metavar="MAPFILE", help="the map file of ddrescue: blocks that it could not read count as missing")


def salvage(arguments: argparse.Namespace) -> int:
    """Gives back what can be read."""
    from ..reader import MapError, Medium
    from ..salvage.salvage import Salvage
    from ..salvage.write import Output

    if arguments.list == (arguments.folder is not None):
        raise UsageError("salvage takes a DIR that files are written into, or --list")
    try:
        medium = Medium(arguments.image_path, arguments.map)
    except MapError as error:
        raise UsageError(str(error)) from error
    with medium:
        found = Salvage(medium, arguments.at, arguments.ledger)
        output = Output(arguments.folder, mode_for(medium.status)) if arguments.folder is not None else None
        try:
            return Report(arguments.progress, found, arguments.accept_unproved).print(output)
        except OSError as error:
            if output is None or not is_full(error):
                raise
            with suppress(OSError):
                # What was written whole gets its name.
                output.flush()
            raise DiskFull(
                f"{shown(arguments.folder)}: its disk is full ({error.strerror}): the files copied so far are complete; make room, and run the same command again"
            ) from error
        finally:
            if output is not None:
                output.close()


class Report:
    """What a salvage prints."""

    def __init__(self, progress: Progress, found: "Salvage", accept: bool):
        self.progress, self.found, self.accept = progress, found, accept
        self.counts: Counts[str] = Counter()
        self.bytes = self.directories = self.unwritten = self.missing = 0

    def print(self, output: Optional[object]) -> int:
        """Prints all of it, and gives the status."""
        from ..salvage.write import Output

        target = output if isinstance(output, Output) else None
        tell_group(self.found.volume, self._said)
        for outcome in self.found.outcomes(target):
            self._outcome(outcome, target is not None)
        notes = self.found.notes
        paths = self.found.paths()
        for note in notes:
            path = paths.get(note.block)
            of = f" (of {escaped(path)})" if path is not None else ""
            self._told(f"{note}{of}", True, did="structure", block=note.block, cause=int(note.cause), message=note.text, path=path)
        self._missing()
        return self._end(len(notes))

    def _missing(self) -> None:
        """Names the first commit that was acknowledged to the ledger and is not there."""
        missing = self.found.missing()
        if not missing:
            return
        self.missing = len(missing)
        stored = self.found.stored(missing[0])
        what = f", which stored {escaped('/' + '/'.join(stored.path))}" if stored is not None else ""
        more = f", and {plural(self.missing - 1, 'later one', 'later ones')}" if self.missing > 1 else ""
        self._told(
            f"commit {missing[0]}{what}{more}: acknowledged to the ledger, and not in this copy, whose newest commit is {self.found.link.numbers}",
            True, did="missing", commit=missing[0], commits=self.missing, path="/" + "/".join(stored.path) if stored is not None else None,
        )

    def _said(self, line: str, **fields: object) -> None:
        self._told(line, False, **fields)

    def _told(self, line: str, is_bad: bool, **fields: object) -> None:
        if self.progress.as_json:
            self.progress.say(line, **fields)
            if is_bad:
                self.progress.failures.append(line)
        elif is_bad:
            self.progress.fail(line)
        else:
            self.progress.say(line)

    def _outcome(self, outcome: "SalvageOutcome", writes: bool) -> None:
        from ..reader import FileType
        from ..salvage.salvage import FILE_LOST, FILE_UNPROVED, FILE_WHOLE, UNFINISHED

        is_directory = outcome.kind is FileType.DIRECTORY
        missed = writes and outcome.written is None and outcome.state != FILE_LOST
        self.unwritten += missed
        if is_directory:
            self.directories += 1
        else:
            self.counts[outcome.state] += 1
            self.bytes += outcome.size if outcome.state not in (FILE_LOST, UNFINISHED) else 0
        path = "/" + "/".join(outcome.path)
        self._told(
            outcome_line(outcome, path, writes), missed or outcome.state not in (FILE_WHOLE, FILE_UNPROVED, UNFINISHED), did="directory" if is_directory else "file",
            path=path, state=outcome.state, bytes=outcome.size, **said_of(outcome.commit), ranges=[list(found) for found in outcome.ranges],
            message=outcome.why, written=outcome.written,
        )

    def _end(self, notes: int) -> int:
        from ..salvage.salvage import FILE_STATES, FILE_UNPROVED, FILE_WHOLE, UNFINISHED

        volume, link, files = self.found.volume, self.found.link, sum(self.counts[state] for state in FILE_STATES)
        status = 0 if not (notes or self.unwritten or self.directories or self.missing) and self.counts[FILE_WHOLE] + self.counts[FILE_UNPROVED] == files else 1
        unproved = self.counts[FILE_UNPROVED]
        if unproved and not self.accept:
            if status == 0:
                self._told(f"{plural(unproved, 'file is', 'files are')} unproved: no digest is kept of what was written there", True, did="unproved", files=unproved)
            status = 1
        words = ", ".join(f"{self.counts[state]:,} {'of earlier commits' if state == 'earlier' else state}" for state in FILE_STATES)
        unfinished = self.counts[UNFINISHED]
        words += f", and {plural(unfinished, 'file', 'files')} of a commit that is not finished" if unfinished else ""
        name = f"volume {volume.label!r}" if volume.label is not None else "volume without a label"
        self.progress.result(
            f"{name}, commit {link.numbers}: {plural(files, 'file', 'files')}, {size(self.bytes)}: {words}; {plural(notes, 'structure is', 'structures are')} not as it must be",
            path=as_text(self.found.medium.path), label=volume.label, moment=volume.moment, capacity=volume.capacity, **said_of(link.numbers),
            files=files, bytes=self.bytes, structures=notes, unfinished=unfinished, **{state: self.counts[state] for state in FILE_STATES},
        )
        return status


def outcome_line(outcome: "SalvageOutcome", path: str, writes: bool) -> str:
    """A line for people: how a file was had, its path, its missing bytes, and where it was written."""
    words = [outcome.state, escaped(path), of_bytes(outcome.size)]
    if outcome.ranges:
        words.append("without " + ", ".join(f"{count} bytes from {begin} on" for begin, count in outcome.ranges))
    if outcome.why:
        words.append(f"- {outcome.why}")
    if writes and outcome.written is not None and outcome.written != path[1:]:
        words.append(f"- written as {escaped(outcome.written)}")
    return " ".join(words)


def tell_group(volume: "Volume", say: "Callable[..., None]") -> None:
    """Says that an image ends with a group of commits that was not finished."""
    begin, end = volume.end, volume.medium.blocks
    if begin < end:
        say(f"a group of commits that was not finished is left out: blocks {begin} to {end - 1}", did="group", block=begin, blocks=end - begin)


# ---- log

def log(arguments: argparse.Namespace) -> int:
    """Prints the chain of tables."""
    from ..reader import MapError, Medium, Volume
    from ..reader.chain import Chain
    from ..reader.survey import Survey

    progress: Progress = arguments.progress
    try:
        medium = Medium(arguments.image_path, arguments.map)
    except MapError as error:
        raise UsageError(str(error)) from error
    with medium:
        volume = Volume(medium)
        tell_group(volume, progress.note)
        chain = Chain(volume, Survey(volume))
        if not chain.links:
            return progress.fail(f"{shown(arguments.image_path)}: no table of a volume can be read")
        broken = lost = 0
        for group in link_groups(chain.links):
            for link in group:
                broken += bool(link.broken)
                tell_link(progress, link)
            lost += tell_gap(progress, group, chain.links)
    newest = chain.links[0].numbers
    progress.outcome = {"path": as_text(arguments.image_path), "commits": newest.commit, "broken": broken, "lost": lost}
    if broken or lost:
        return progress.fail(f"{plural(broken, 'table is', 'tables are')} broken, {lost} lost")
    return 0


def link_groups(links: "List[Link]") -> "Iterator[List[Link]]":
    """Each link whose commit is known, with those below it whose commits are not."""
    group: "List[Link]" = []
    for link in links:
        if group and link.commit is not None:
            yield group
            group = []
        group.append(link)
    yield group


def tell_link(progress: Progress, link: "Link") -> None:
    """Prints a commit."""
    table = link.table
    files, directories = (table.files, table.directories) if table is not None else (None, None)
    line = f"{'?' if link.commit is None else link.commit} {link.address} {'?' if files is None else files} {'?' if directories is None else directories}"
    if link.broken:
        line += f" broken: {'; '.join(link.broken)}"
    progress.say(line, did="commit", **said_of(link.numbers), address=link.address, files=files, directories=directories, broken=list(link.broken))


def tell_gap(progress: Progress, group: "List[Link]", links: "List[Link]") -> int:
    """Prints in one line how many commits are lost below the first link of a group, and gives their number."""
    from ..reader.numbering import Span

    after = links.index(group[-1]) + 1
    low = links[after].numbers.low + 1 if after < len(links) else 0
    high, unknown = group[0].numbers.high - 1, len(group) - 1
    if group[0].commit is None:
        high, unknown = group[0].numbers.high, len(group)
    count = high - low + 1 - unknown
    if count <= 0 or group[0].commit is None:
        # Above the newest commit that is known there may be none.
        return 0
    span = Span(Commit(low), Commit(high))
    which = f"{count} of {low} to {high}" if unknown else str(low) if count == 1 else f"{low} to {high}"
    progress.say(f"{which} ? ? ? lost", did="commit", **said_of(span), address=None, files=None, directories=None, broken=["lost"], lost=count)
    return count


def said_of(commits: "Optional[Span]") -> "Dict[str, object]":
    """The commits of something in JSON: one that is known, else the least and the greatest."""
    if commits is None or commits.commit is not None:
        return {"commit": commits.commit if commits is not None else None}
    return {"commit": None, "between": [commits.low, commits.high]}


__all__ = ["add_commands", "log", "salvage"]
