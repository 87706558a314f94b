"""What the commands do that change an archive."""

from __future__ import annotations

import argparse
import os
import uuid
from contextlib import closing
from typing import Dict, Tuple

from ..base.beneath import open_given
from ..base.durable import make_folder
from ..base.errors import UsageError
from ..local.sources import shown
from .add import AddOptions, Adder
from .catalogue import Catalogue
from .config import CONFIG_FILE, LOCAL, check_label, check_remote, checked, config_of, has_password, is_url, strange, volume_label, without_password, write
from .content import Content
from .errors import BadConfig, NoArchive
from .exclude import rules_of
from .fresh import Fresh
from .markers import Owner, require_place, write_marker
from .places import Places
from .preview import SAME_AS, Change, Preview
from .rebuild import Rebuilder
from .remake import open_or_make, open_to_compare
from .remotes import owner_of
from .scan import archive_targets
from .seen import Seen
from .status import lacking_words
from .tell import Tell, plural, printed_path, shown_path, size, tell_of


def init(arguments: argparse.Namespace) -> int:
    """Makes an archive. `archive.toml` comes last, so a folder that has it is whole."""
    folder = os.path.realpath(arguments.dir)
    if os.path.exists(os.path.join(folder, CONFIG_FILE)):
        raise NoArchive(f"{shown(folder)}: is an archive already")
    catalogue = catalogue_of(arguments)
    left = [name for name in strange(folder) if not name.startswith(LOCAL)]
    if left:
        raise NoArchive(f"{shown(folder)}: is not empty: it has {shown(left[0])}")
    copies = [check_remote(copy if ":" in copy else os.path.abspath(copy)) for copy in arguments.copies]
    wanted = len(copies) if arguments.copies_wanted is None else arguments.copies_wanted
    table = {
        "format": 1, "id": str(uuid.uuid4()), "label": check_label(arguments.label), "catalogue": catalogue, "capacity": arguments.capacity, "nodes": arguments.nodes,
        "copies": copies, "copies_wanted": wanted, "delete": arguments.delete or ("copied" if wanted else "acknowledged"),
        "same_device": arguments.same_device,
    }
    config = checked(folder, table, "init")
    make_folder(folder)
    for copy in filter(os.path.isabs, copies):
        require_place(Owner(folder, "", config.label, config.same_device), copy)
    with Catalogue(config, make=True) as made:
        for copy in filter(os.path.isabs, copies):
            write_marker(owner_of(made), copy)
    write(config)
    line = f"made the archive {config.label} in {shown(folder)}"
    tell_of(arguments).result(line, archive=folder, label=config.label, catalogue=without_password(config.catalogue))
    return 0


def catalogue_of(arguments: argparse.Namespace) -> str:
    """The catalogue that the words, a file or the environment name; a password among the words could be read by others."""
    found = arguments.catalogue
    if arguments.catalogue_file is not None:
        if found is not None:
            raise UsageError("name a catalogue by --catalogue or by --catalogue-file, and not by both")
        with open(open_given(arguments.catalogue_file), encoding="utf-8") as file:
            found = file.read(4096).strip()
    elif found is not None and has_password(found):
        raise UsageError("a password among the words can be read by everybody on this machine: use --catalogue-file, UDFBURN_CATALOGUE or ~/.pgpass")
    else:
        found = found or os.environ.get("UDFBURN_CATALOGUE")
    if found and not is_url(found):
        raise BadConfig("the catalogue is not a PostgreSQL URL (postgresql://..)")
    return found or LOCAL


def add(arguments: argparse.Namespace) -> int:
    """Stores folders."""
    if arguments.deletions and arguments.delete_source:
        raise UsageError("--deletions records what is gone at the source, and --delete-source deletes it there: give one of them")
    if arguments.dry_run:
        return preview(arguments)
    config, tell = config_of(arguments), tell_of(arguments)
    wanted = archive_targets(arguments.folder, arguments.at)
    options = AddOptions(arguments.delete_source, arguments.skip_odd, rules_of(arguments), arguments.trust_times, arguments.deletions, not arguments.no_copy, arguments.again, arguments.bundle, arguments.library)
    with Catalogue(config) as catalogue:
        adder = Adder(config, catalogue, options, tell)
        try:
            summary = adder.run(wanted)
        finally:
            for line in adder.summary.skipped:
                tell.left_out(line)
            for line in adder.summary.failures:
                tell.fail(line)
            for why, count in adder.deleter.waiting.items():
                tell.note(f"{plural(count, 'source stays', 'sources stay')} {why}", did="stays", files=count, message=why)
    words = [f"stored {plural(summary.files, 'file', 'files')}, {size(summary.bytes)}"]
    words += [f"{summary.same_as} the same as others"] if summary.same_as else []
    words += [f"{summary.same} were there"] if summary.same else []
    words += [f"deleted {summary.deleted}"] if arguments.delete_source else []
    words += [f"{summary.gone} gone"] if summary.gone else []
    words += [f"{summary.back} there again"] if summary.back else []
    words += [f"did not keep {plural(summary.empty, 'empty folder', 'empty folders')}"] if summary.empty else []
    words += [f"left {summary.excluded} out"] if summary.excluded else []
    words += [f"{plural(len(summary.failures), 'failure', 'failures')}"] if summary.failures else []
    tell.result(
        ", ".join(words), files=summary.files, bytes=summary.bytes, same=summary.same, same_as=summary.same_as, deleted=summary.deleted,
        kept=sum(adder.deleter.waiting.values()), empty=summary.empty, excluded=summary.excluded, gone=summary.gone, back=summary.back,
    )
    return 1 if summary.failures else 0


def preview(arguments: argparse.Namespace) -> int:
    """Prints what `add` would store."""
    if arguments.delete_source:
        raise UsageError("--dry-run deletes nothing: leave --delete-source out")
    found, counts, sizes = differing(arguments, False, arguments.skip_odd)
    same_as, _ = counts.pop(SAME_AS), sizes.pop(SAME_AS)
    files = sum(counts.values())
    words = [f"would store {plural(files, 'file', 'files')}, {size(sum(sizes.values()))}"]
    words += [f"{same_as} the same as others"] if same_as else []
    words += [f"{found.same} are there"] if found.same else []
    tell_of(arguments).result(", ".join(words), files=files, bytes=sum(sizes.values()), same=found.same, same_as=same_as, excluded=found.excluded)
    return 1 if found.failures else 0


def diff(arguments: argparse.Namespace) -> int:
    """Prints how folders differ from the archive."""
    found, counts, _ = differing(arguments, True, True)
    counts.pop(SAME_AS)
    words = [f"{counts[kind]} {kind}" for kind in CHANGE_KINDS] + [f"{found.same} the same"]
    tell_of(arguments).result(", ".join(words), **counts, same=found.same, excluded=found.excluded)
    return 1 if found.failures or any(counts.values()) else 0


CHANGE_KINDS = ("new", "changed", "gone")


def differing(arguments: argparse.Namespace, gone: bool, skip_odd: bool) -> "Tuple[Preview, Dict[str, int], Dict[str, int]]":
    """Prints the files that differ; gives how many of each kind, and their bytes. Where files that are gone are asked for, none counts as the
    same as another one: its path differs."""
    config, tell = config_of(arguments), tell_of(arguments)
    wanted, rules = archive_targets(arguments.folder, arguments.at), rules_of(arguments)
    counts, sizes = dict.fromkeys((*CHANGE_KINDS, SAME_AS), 0), dict.fromkeys((*CHANGE_KINDS, SAME_AS), 0)
    again = gone or arguments.again
    with Catalogue(config) as catalogue, closing(Places(config, catalogue)) as places:
        with closing(Fresh(catalogue, places, Seen(config) if arguments.trust_times else None, again and not gone)) as fresh:
            found = Preview(catalogue, fresh, rules, None if again else Content(config, catalogue))
            for change in found.changes(wanted, gone):
                counts[change.kind] += 1
                sizes[change.kind] += change.size
                show_change(tell, change)
    for line in found.odd:
        if skip_odd:
            tell.left_out(line)
        else:
            found.failures.append(line)
    for line in found.failures:
        tell.fail(line)
    return found, counts, sizes


def show_change(tell: Tell, change: Change) -> None:
    """Prints a file that differs."""
    path = printed_path(change.path)
    if change.at is None:
        tell.say(f"{change.kind} {path}", did=change.kind, path=shown_path(change.path), bytes=change.size)
    else:
        tell.say(f"same {path} as {printed_path(change.at)}", did=SAME_AS, path=shown_path(change.path), bytes=change.size, **{"as": shown_path(change.at)})


def rebuild(arguments: argparse.Namespace) -> int:
    """Makes the catalogue again."""
    config, tell = config_of(arguments), tell_of(arguments)
    catalogue, kept = (open_to_compare if arguments.dry_run else open_or_make)(config, tell)
    with catalogue:
        summary = Rebuilder(config, catalogue, tell, arguments.dry_run, kept).run(arguments.image)
    for difference in summary.differences:
        tell.say(f"{difference.volume} {difference.path}: {difference.how}", did="differs", **difference._asdict())
    for volume, count in summary.unknown.items():
        tell.say(f"{volume}: {plural(count, 'file', 'files')}: the catalogue did not have this volume", did="unknown", volume=volume, files=count)
    for line in summary.failures:
        tell.fail(line)
    for label in summary.lacking:
        words = f"{label}: there are copies or other files of it, but its image is not at hand: bring it back, and run 'rebuild' again. Until then its files are unknown"
        tell.note(words, did="lacking", volume=label)
    for label in summary.away:
        tell.note(f"{label} is not at hand: what the catalogue says of it stays as it is", did="away", volume=label)
    for one in summary.without_bytes:
        words = f"{shown_path(one.first)}: {lacking_words(config.label, one)}: bring that volume, and run 'rebuild' again, or 'add' what lacks them"
        tell.note(words, did="without bytes", volume=volume_label(config.label, one.volume), files=one.files, path=shown_path(one.first))
    if summary.names:
        tell.note(f"{plural(summary.names, 'name', 'names')} in the tables of names differed from the files, and were repaired", did="mended", names=summary.names)
    count = len(summary.differences) + sum(summary.unknown.values())
    found = plural(count, "difference", "differences") if count else "no difference"
    tell.result(
        f"read {plural(summary.volumes, 'volume', 'volumes')} with {plural(summary.files, 'file', 'files')}: {found}",
        volumes=summary.volumes, files=summary.files, differences=count, away=summary.away,
    )
    return 1 if summary.failures else 0
