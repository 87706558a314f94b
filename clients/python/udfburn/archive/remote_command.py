"""What `remote` does: the places for copies are listed, added and removed."""

from __future__ import annotations

import argparse
import os

from ..base.errors import UsageError
from .catalogue import Catalogue, STATE_CLOSED
from .config import Config, change, check_remote, config_of, quoted_list
from .errors import BadConfig, CopyFailed
from .lag import forget_seen
from .markers import opened_folder, require_place, write_marker
from .remotes import owner_of, remote_of
from .tell import Tell, plural, tell_of


def remote(arguments: argparse.Namespace) -> int:
    """Lists the places for copies, or changes them."""
    config, tell = config_of(arguments), tell_of(arguments)
    if (arguments.remote is None) != (arguments.action == "list"):
        raise UsageError("name a remote with 'add' and 'remove', and none with 'list'")
    with Catalogue(config) as catalogue:
        if arguments.action == "list":
            return listed(config, catalogue, tell)
        name = check_remote(arguments.remote if ":" in arguments.remote else os.path.abspath(arguments.remote))
        if arguments.action == "add":
            return added(config, catalogue, tell, name, arguments.same_device)
        return removed(config, catalogue, tell, name)


def listed(config: Config, catalogue: Catalogue, tell: Tell) -> int:
    """Shows each place, whether it is there, and how many of the closed volumes it has."""
    closed = {row.number for row in catalogue.volumes() if row.state == STATE_CLOSED}
    failures = 0
    for name in config.copies:
        have = sum(1 for copy in catalogue.copies() if copy.remote == name and copy.trouble is None and copy.volume in closed)
        why = None
        try:
            remote_of(catalogue, name).require_own()
        except CopyFailed as error:
            why = str(error)
            failures += 1
        tell.say(f"{name}: has {have} of {plural(len(closed), 'closed volume', 'closed volumes')}", did="listed", remote=name, copies=have, closed=len(closed), trouble=why)
        if why is not None:
            tell.fail(why)
    tell.result(plural(len(config.copies), "remote", "remotes"), remotes=len(config.copies), wanted=config.wanted)
    return 1 if failures else 0


def added(config: Config, catalogue: Catalogue, tell: Tell, name: str, same_device: bool) -> int:
    """Adds a place. One that `archive.toml` has already gets its marker, where that is missing."""
    owner = owner_of(catalogue)._replace(same_device=config.same_device or same_device)
    new = name not in config.copies
    values = {"copies": quoted_list((*config.copies, name))} if new else {}
    if os.path.isabs(name):
        require_place(owner, name)
        write_marker(owner, name)
        note_lacking(catalogue, tell, name)
    if same_device and not config.same_device:
        values["same_device"] = "true"
    changed = change(config, **values) if values else config
    wanted = f"copies_wanted is {changed.wanted} of {len(changed.copies)}"
    tell.result(f"{'added' if new else 'has already'} {name}: {wanted}", remote=name, new=new, remotes=len(changed.copies), wanted=changed.wanted)
    return 0


def note_lacking(catalogue: Catalogue, tell: Tell, name: str) -> None:
    """Has the catalogue say which copies are not in a folder: another disk may be there than the one that had them. Of the volumes of another
    machine that has a disk there too nothing is said."""
    with opened_folder(name) as root:
        there = set(root.names_in(()))
    for row in catalogue.volumes():
        if row.label + ".img" in there or not catalogue.is_here(row):
            continue
        forget_seen(catalogue, row.number, name)
        for copy in catalogue.copies(row.number):
            if copy.remote == name and copy.trouble is None:
                catalogue.save_copy(copy._replace(trouble="is not there"))
                tell.note(f"{row.label}: the copy on {name} is not there: 'repair {row.label}'", did="lacks", volume=row.label, remote=name)


def removed(config: Config, catalogue: Catalogue, tell: Tell, name: str) -> int:
    """Removes a place. What is there stays, and no longer counts."""
    if name not in config.copies:
        raise BadConfig(f"{name}: is no remote of this archive: 'remote list' shows them")
    left = tuple(copy for copy in config.copies if copy != name)
    if config.delete == "copied" and not left:
        raise BadConfig(f'{name}: is the only remote, and archive.toml has delete = "copied": add another one first, or change that')
    changed = change(config, copies=quoted_list(left), copies_wanted=str(min(config.wanted, len(left))))
    catalogue.forget_copies(name)
    wanted = f"copies_wanted is {changed.wanted} of {len(changed.copies)}"
    tell.result(f"removed {name}: {wanted}. Its files stay where they are", remote=name, remotes=len(left), wanted=changed.wanted)
    return 0
