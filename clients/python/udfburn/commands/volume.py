"""The commands for a volume as a whole: `format` and `status`."""

from __future__ import annotations

import argparse
import os
import stat
from typing import TYPE_CHECKING, Dict, List, Optional, Tuple

from ..base.beneath import new_given, remove_empty
from ..base.errors import ProgramFailed, SourceError, UsageError
from ..base.progress import Progress, moment, plural, size
from ..base.sizes import capacity, mode_of
from ..protocol import as_text, limits, shown, spelled_size
from ..protocol.units import Moment
from ..wire.connection import check_word, find_program, run_program
from ..wire.operations import now
from .arguments import add_library, add_volume, command
from .common import progress_of

if TYPE_CHECKING:
    from .arguments import Subs
    from .status import Status

DEFAULT_CAPACITY = 359_844
"""Blocks of a volume where none are said: those of a CD-R of 80 minutes."""

def add_commands(subs: Subs) -> None:
    """The words of these commands."""
    new = command(
        subs, "format", format_image, "make a volume on an image",
        "The image must be new or empty, and a disc blank. The moment of the format distinguishes it from all other volumes.", volume=False,
    )
    new.add_argument("image_path", nargs="?", metavar="IMAGE", help="the image file; created if it is missing")
    add_library(new)
    new.add_argument("--device", metavar="PATH", help="in place of an image: the disc in a recorder, such as /dev/sr0, with the C library")
    new.add_argument("--label", metavar="TEXT", help="the volume's name, at most 30 characters (default: the file name without its extension)")
    new.add_argument("--capacity", metavar="N", type=capacity, help="blocks of 2,048 bytes, from 512 to 450,000, or a size such as 700MiB (default: 359,844 blocks, a CD-R of 80 minutes)")
    new.add_argument("--moment", metavar="MOMENT", type=moment_given, help="the moment of the format: microseconds from 1970, or a time such as 2026-11-26T22:00:00Z (default: now)")
    new.add_argument("--mode", metavar="MODE", type=mode_given, default=0o600, help="the permissions of a new file, in octal (default: 600, nobody's but the user's)")
    state = command(
        subs, "status", status, "show what a volume is, and what it has left",
        "For an image everything is known. Over a socket only the tree is known, and the rest is named as unknown.", volume=False,
    )
    state.add_argument("where", nargs="?", metavar="IMAGE|SOCKET", help="the image, or the socket of a daemon (default: --socket, --image or UDFBURN_SOCKET)")
    add_volume(state.add_argument_group("other ways to name the volume"))


# ---- format

def mode_given(text: str) -> int:
    """The permissions of a word, in octal."""
    mode = mode_of(text)
    if mode is None:
        raise argparse.ArgumentTypeError(f"{text!r} is not a valid mode: give one from 600 to 666, such as 640")
    return mode


def moment_given(text: str) -> Moment:
    """Microseconds of a word: a count from 1970 on, or a date with a time."""
    from datetime import datetime, timedelta, timezone

    if text.isascii() and text.isdecimal():
        found = int(text[:20])
    else:
        try:
            when = datetime.fromisoformat(text[:-1] + "+00:00" if text.endswith(("Z", "z")) else text)
        except ValueError:
            raise argparse.ArgumentTypeError(f"{text!r} is not a valid moment: give microseconds from 1970, or a time such as 2026-11-26T22:00:00Z") from None
        when = when if when.tzinfo else when.replace(tzinfo=timezone.utc)
        found = (when - datetime(1970, 1, 1, tzinfo=timezone.utc)) // timedelta(microseconds=1)
    if not 0 <= found < limits.MOMENT:
        raise argparse.ArgumentTypeError(f"{text!r} is outside 1970 to 2099")
    return Moment(found)


def label_given(arguments: argparse.Namespace) -> str:
    """The label that is asked for, or the name of the image's file without its extension."""
    given: Optional[str] = arguments.label
    label: str = os.path.splitext(os.path.basename(arguments.image_path))[0] if given is None else given
    fault = label_fault(label)
    if fault:
        raise UsageError(f"{shown(label)}: {fault}" + ("" if given is not None else " (name the volume with --label)"))
    return label


def label_fault(label: str) -> Optional[str]:
    """Why a text is no label, if it is none (ECMA-167 3/10.1.4, UDF 2.01 2.1.1)."""
    from ..local.sources import why_not

    if not label or "\0" in label:
        return "is not a valid label: a label has at least one character, and no NUL"
    # What cannot be spelled cannot be spelled as a name either; slashes and dots are well in a label.
    fault = why_not("x" + label.replace("/", "x")) if spelled_size(label) <= 31 else f"takes {spelled_size(label)} bytes encoded, and a label has at most 31"
    return fault.replace("its name", "the label") if fault else None


def format_image(arguments: argparse.Namespace) -> int:
    """Makes a volume."""
    if arguments.device:
        return format_device(arguments)
    if arguments.image_path is None:
        raise UsageError("name the image to make, or a recorder with --device")
    image: str = arguments.image_path
    label = label_given(arguments)
    when = now() if arguments.moment is None else arguments.moment
    blocks: int = DEFAULT_CAPACITY if arguments.capacity is None else arguments.capacity
    made = new_given(image, arguments.mode)
    try:
        if arguments.library:
            format_by_library(image, label, when, blocks)
        else:
            format_by_program(image, label, when, blocks, arguments.program)
    except BaseException:
        if made:
            remove_empty(image)
        raise
    progress_of(arguments).result(
        f"formatted {shown(image)}: {label}, {moment(when)}, {blocks:,} blocks ({size(blocks * limits.BLOCK)})",
        path=as_text(image), label=label, moment=when, capacity=blocks,
    )
    return 0


def format_device(arguments: argparse.Namespace) -> int:
    """Makes a volume on the disc in a recorder, as large as the disc allows."""
    from ..wire.library import find_library
    from ..wire.recorder import format_disc

    device: str = arguments.device
    if arguments.image_path is not None or arguments.capacity is not None or arguments.library:
        raise UsageError("--device takes the place of IMAGE, --library and --capacity: the disc says how many blocks there are")
    if arguments.label is None:
        raise UsageError("name the volume with --label")
    label = label_given(arguments)
    when = now() if arguments.moment is None else arguments.moment
    format_disc(find_library(), device, label, when)
    progress_of(arguments).result(f"formatted the disc in {shown(device)}: {label}, {moment(when)}", path=device, label=label, moment=when)
    return 0


def format_by_program(image: str, label: str, when: int, blocks: int, given: Optional[str]) -> None:
    """Makes a volume with the program udfburn."""
    program = find_program(given)
    check_word(os.path.abspath(image))
    try:
        run_program(program, ["format", os.path.abspath(image), label, str(when), str(blocks)])
    except ProgramFailed as error:
        raise SourceError(why_not_formatted(image, str(error))) from error


def format_by_library(image: str, label: str, when: Moment, blocks: int) -> None:
    """Makes a volume with the C library."""
    from ..wire.library import CallRefused, find_library

    try:
        find_library().format(os.path.realpath(image), label, when, blocks)
    except CallRefused as refused:
        raise SourceError(why_not_formatted(image, refused.name, refused.reason())) from refused


def why_not_formatted(image: str, line: str, reason: str = "") -> str:
    """What the program's line, or the library's status with its reason, means for whoever formats."""
    if "61 NotBlank" in line or line == "UDFBURN_VOLUME":
        return (
            f"{shown(image)}: holds something already, and stays as it is. Use another name; or, if it was left by a format that was cut"
            " short, remove it, or repeat that format with its own --label, --capacity and --moment"
        )
    if "64 Device" in line or line in ("UDFBURN_BUSY", "UDFBURN_DEVICE", "UDFBURN_NO_SPACE", "UDFBURN_READ_ONLY"):
        return f"{shown(image)}: cannot be made or written: its folder is missing, its disk is full or fails, or another program has it ({line}){reason}"
    return f"{shown(image)}: {line}{reason}"


# ---- status

def where_of(arguments: argparse.Namespace) -> Tuple[Optional[str], Optional[str]]:
    """The image and the socket that are looked at."""
    image, path = arguments.image, arguments.socket
    where = arguments.where
    if where is not None:
        if image or path:
            raise UsageError("name the volume once: as IMAGE or SOCKET, or with --image and --socket")
        if where.startswith(("unix:", "image:")):
            kind, where = where.split(":", 1)
        else:
            kind = "unix" if stat.S_ISSOCK(os.stat(where).st_mode) else "image"
        image, path = (where, None) if kind == "image" else (None, where)
    elif not image and not path:
        path = os.environ.get("UDFBURN_SOCKET")
    if not image and not path:
        raise UsageError("give a volume: an image, or the socket of a daemon")
    return image, path


def status(arguments: argparse.Namespace) -> int:
    """Says what a volume is."""
    from .status import of_image, of_socket

    image, path = where_of(arguments)
    progress = progress_of(arguments)
    state = of_image(image) if image else of_socket(path or "", arguments)
    tell_status(state, progress)
    for note in state.notes:
        progress.fail(f"{state.where}: {note}")
    return 1 if state.notes else 0


def tell_status(state: Status, progress: Progress) -> None:
    """Prints a state: a line for each thing that is known, and one for what is not."""
    if not progress.as_json:
        for name, text in status_lines(state):
            progress.say(f"{name:<9} {text}")
    fields: Dict[str, object] = dict(state._asdict())
    progress.outcome = fields


def status_lines(state: Status) -> List[Tuple[str, str]]:
    """What is printed of a state: a word, and what is said of it."""
    lines = [("volume", state.where)]
    if state.label is not None:
        lines.append(("label", state.label))
    if state.moment is not None:
        lines.append(("formatted", f"{moment(state.moment)} ({state.moment} microseconds from 1970, UUID {state.uuid})"))
    if state.commits is not None:
        lines.append(("commits", f"{state.commits:,}"))
    lines += block_lines(state)
    if state.nodes is not None:
        lines.append(("nodes", f"{state.nodes:,} of {limits.NODES:,}: {plural(state.files or 0, 'file', 'files')}, {plural(state.directories or 0, 'directory', 'directories')}; {limits.NODES - state.nodes:,} left"))
    if state.bytes is not None:
        lines.append(("bytes", f"{state.bytes:,} in all files ({size(state.bytes)})"))
    lines += [("unfinished", f"{path}: a client stores it, or was interrupted: its command goes on with it, and 'rm' removes it") for path in state.unfinished]
    if state.clients is not None:
        lines.append(("clients", client_words(state.clients)))
    if state.unknown:
        lines.append(("unknown", f"{', '.join(state.unknown)}: no answer of a daemon has them (name the image)"))
    return lines


def block_lines(state: Status) -> List[Tuple[str, str]]:
    """What is printed of the blocks."""
    if state.capacity is None or state.written is None or state.left is None:
        return []
    lines = [("blocks", f"{state.written:,} of {state.capacity:,} are written, {state.left:,} are left ({size(state.left * limits.BLOCK)})")]
    if state.loose:
        lines.append(("loose", f"{plural(state.loose, 'block', 'blocks')} at the end of no commit: of one that was cut short, or one whose last block is damaged ('check --expect' shows which)"))
    return lines


def client_words(clients: int) -> str:
    """What is said of the clients."""
    left = limits.CLIENTS - clients
    linux = f"Linux mounts up to {limits.LINUX_CLIENTS}" + (", so it does not mount this volume" if clients > limits.LINUX_CLIENTS else f": {limits.LINUX_CLIENTS - clients} left")
    return f"{clients} of {limits.CLIENTS}: {left} left; {linux}"


__all__ = ["add_commands", "format_image", "status"]
