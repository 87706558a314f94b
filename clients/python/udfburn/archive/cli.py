"""The command line of `udfburn-archive`: words, and what they ask for."""

from __future__ import annotations

import argparse
import errno
import sys
from typing import TYPE_CHECKING, Callable, List, Optional

from .. import __version__
from ..base.completion import complete_line
from ..base.errors import OutputFailed, UdfburnError, UsageError
from ..base.sizes import capacity, percent
from ..base.streams import drop_output, parsed, take_any_name, take_descriptors
from ..protocol import limits, shown
from .config import DEFAULT_NODES, LEAST_NODES, node_count
from .tell import Tell

if TYPE_CHECKING:
    from ..commands.arguments import Subs

EPILOG = """examples:
  udfburn-archive init /srv/archive --label PHOTOS --copies /mnt/second
  udfburn-archive add ~/photos --archive /srv/archive
  udfburn-archive close --archive /srv/archive
  udfburn-archive get /photos/2026 /tmp/back --archive /srv/archive

exit status: 0 everything is done, 1 something is not, 2 usage error,
130 interrupted.
environment: UDFBURN (the program udfburn), UDFBURN_LIBRARY (the C library),
UDFBURN_ARCHIVE (the archive's folder).
docs/ARCHIVE.md has the design, and what to do when something went wrong. The manual page is udfburn-archive(1)."""


def parser() -> argparse.ArgumentParser:
    """The words of each command."""
    top = argparse.ArgumentParser(
        prog="udfburn-archive", description="Keeps trees of any size on many UDF volumes, with a catalogue that can be rebuilt from the volumes alone.",
        epilog=EPILOG, formatter_class=argparse.RawDescriptionHelpFormatter,
    )
    top.add_argument("--version", action="version", version=f"udfburn-archive {__version__}")
    subs = top.add_subparsers(dest="command", required=True, metavar="COMMAND")
    add_writers(subs)
    add_readers(subs)
    return top


def command(subs: "Subs", name: str, words: str) -> argparse.ArgumentParser:
    """A command that works on an archive."""
    found = subs.add_parser(name, help=words, description=words[0].upper() + words[1:] + ".")
    found.add_argument("--archive", metavar="DIR", help="the archive's folder (default: $UDFBURN_ARCHIVE, or the current folder)")
    found.add_argument("--json", action="store_true", help="print a line of JSON for each step, and one with the result at the end")
    found.add_argument("--quiet", action="store_true", help="print nothing but errors")
    found.add_argument("--verbose", action="store_true", help="also print a line for each file that is there already")
    return found


def add_writers(subs: "Subs") -> None:
    """Commands that change the archive."""
    init = subs.add_parser("init", help="make an archive", description="Make an archive in a new or empty folder.")
    init.add_argument("dir", metavar="DIR", help="the folder of the archive; made if it is missing")
    init.add_argument("--catalogue", metavar="URL", default=None, help="a PostgreSQL database, postgresql://HOST/DATABASE (default: a SQLite file in the folder)")
    init.add_argument("--catalogue-file", metavar="FILE", help="a file that has the URL, which may have a password (or set UDFBURN_CATALOGUE)")
    init.add_argument("--capacity", type=capacity, default=limits.CAPACITY[1], metavar="N", help="the size of a volume: blocks of 2,048 bytes, from 512 to 450,000, or a size such as 700MiB (default: 450,000 blocks)")
    init.add_argument("--nodes", type=node_count, default=DEFAULT_NODES, metavar="N", help=f"how many files and folders a volume takes while its files have less than 64 KiB on average, from {LEAST_NODES} to {limits.NODES:,}; with fewer the archive takes less room, with more it has fewer volumes (default: {DEFAULT_NODES:,})")
    init.add_argument("--label", default="ARCHIVE", help="the name of the archive; its volumes are called LABEL-000001, LABEL-000002, .. (default: ARCHIVE)")
    init.add_argument("--copies", nargs="+", default=[], metavar="REMOTE", help="where closed volumes are copied to: absolute paths of folders, or rclone remotes as NAME:PATH")
    init.add_argument("--copies-wanted", type=int, metavar="N", help="how many remotes must have a volume before its sources are deleted (default: all)")
    init.add_argument("--delete", choices=("acknowledged", "copied"), help="when --delete-source may delete: once a volume has acknowledged the file, or once as many remotes have it as are wanted (default: copied if there are remotes)")
    init.add_argument("--same-device", action="store_true", help="allow folders for copies on the disk of the archive itself: copies there are lost with it")
    init.add_argument("--json", action="store_true", help="print a line of JSON with the result")
    init.add_argument("--quiet", action="store_true", help="print nothing but errors")
    init.set_defaults(verbose=False)

    add = command(subs, "add", "store folders and files; run it again to finish what was interrupted")
    add.add_argument("folder", nargs="+", metavar="FOLDER", help="a local folder or file")
    add.add_argument("--at", default="/", metavar="PATH", help="the path in the archive: a single FOLDER becomes PATH; if PATH ends with a slash, or there are several, each keeps its name below PATH (default: /)")
    add.add_argument("--delete-source", action="store_true", help="delete each local file, when archive.toml allows it")
    add.add_argument("--each", action="store_true", help="changes nothing, and is accepted as before")
    add.add_argument("--skip-odd", action="store_true", help="leave out links, pipes, sockets and devices without counting them as failures")
    add.add_argument("--dry-run", action="store_true", help="print what would be stored, and change nothing")
    add.add_argument("--deletions", action="store_true", help="record which files below PATH are not at the source any more: they stay in the archive, and are shown only as of earlier times")
    add.add_argument("--bundle", action="store_true", help="store the small files of a folder, where they are many, together in tars; each has its own path, and is given back by itself")
    add.add_argument("--again", action="store_true", help="store each new file, also one whose bytes the archive has under another path or time")
    add.add_argument("--library", action="store_true", help="write the volumes in this process, with the C library (from UDFBURN_LIBRARY, or where the system finds it): many small files take fewer syncs")
    add.add_argument("--no-copy", action="store_true", help="do not copy to the remotes what the open volumes have more; 'copy' does it later")
    add_rules(add)

    diff = command(subs, "diff", "print which local files are new or changed, and which files of the archive are gone there")
    diff.add_argument("folder", nargs="+", metavar="FOLDER", help="a local folder or file")
    diff.add_argument("--at", default="/", metavar="PATH", help="the path in the archive, as for add (default: /)")
    add_rules(diff)

    command(subs, "copy", "copy to each remote what the open volumes have more than their copies there, as each add does at its end")

    close = command(subs, "close", "close volumes: complete the bag, make the image read-only, and copy it to each remote")
    close.add_argument("volume", nargs="*", metavar="VOLUME", help="labels of volumes (default: all of this folder that have files)")
    close.add_argument("--full", action="store_true", help="close only full volumes, and make missing copies")
    close.add_argument("--without-damaged", action="store_true", help="first take damaged files off their volumes; otherwise such a volume is not closed")

    close.add_argument("--parity", type=percent, metavar="PERCENT", help="also keep parity of so many percent beside each closed image and its copies, by par2; 'repair' uses it")

    repair = command(subs, "repair", "replace damaged or lost images by good copies, and damaged copies by good images")
    repair.add_argument("volume", nargs="*", metavar="VOLUME", help="labels of volumes (default: all in which check found damage)")
    add_disc(repair, False)

    burn = command(subs, "burn", "burn a closed volume onto a blank disc, and compare every byte; run it again to finish what was interrupted")
    burn.add_argument("volume", metavar="VOLUME", help="the label of the volume")
    add_disc(burn, True)

    away = command(subs, "put-away", "say where you keep the image of a closed volume, so that it does not count as lost")
    away.add_argument("volume", metavar="VOLUME", help="the label of the volume")
    away.add_argument("place", nargs="?", metavar="PLACE", help="where it is, in your words; without it the volume is not put away any more")

    retire = command(subs, "retire", "take a volume that is damaged or lost out of use; 'add' stores its files again")
    retire.add_argument("volume", metavar="VOLUME", help="the label of the volume")

    remote = command(subs, "remote", "list, add or remove the places for copies")
    remote.add_argument("action", choices=("list", "add", "remove"), metavar="list|add|remove", help="'add' also lets a folder that is in archive.toml already take copies")
    remote.add_argument("remote", nargs="?", metavar="REMOTE", help="a folder, or an rclone remote as NAME:PATH")
    remote.add_argument("--same-device", action="store_true", help="allow folders for copies on the disk of the archive itself: copies there are lost with it")

    adopt = command(subs, "adopt", "take over a volume from another folder of this archive whose machine is gone")
    adopt.add_argument("volume", metavar="VOLUME", help="the label of the volume")
    adopt.add_argument("image", nargs="?", metavar="IMAGE", help="the image (default: it is looked for in both folders)")

    rebuild = command(subs, "rebuild", "rebuild the catalogue from the volumes at hand, and report each difference from the old one")
    rebuild.add_argument("image", nargs="*", metavar="IMAGE", help="further images, or folders of images")
    rebuild.add_argument("--dry-run", action="store_true", help="report the differences, and change nothing")


def add_rules(sub: argparse.ArgumentParser) -> None:
    """Which local files count, and when they are read."""
    sub.add_argument("--exclude", action="append", default=[], metavar="PATTERN", help="leave out what PATTERN matches, a line as in a .gitignore; may be given several times")
    sub.add_argument("--exclude-from", action="append", default=[], metavar="FILE", help="leave out what the lines of FILE match")
    sub.add_argument("--exclude-caches", action="store_true", help="leave out folders with a CACHEDIR.TAG")
    sub.add_argument("--one-file-system", action="store_true", help="leave out folders on which another file system is mounted")
    sub.add_argument("--trust-times", action="store_true", help="do not read a file again whose size, times and inode are as they were when an earlier run with this option read it")


def add_disc(sub: argparse.ArgumentParser, required: bool) -> None:
    """The options for a disc in a drive."""
    sub.add_argument("--disc", metavar="NAME", required=required, help="the name of the disc in the drive, as it is written on it")
    sub.add_argument("--device", metavar="DEVICE", help="the drive (default: /dev/sr0)")


def add_readers(subs: "Subs") -> None:
    """Commands that read the archive."""
    ls = command(subs, "ls", "list a folder of the archive, or a file")
    ls.add_argument("path", nargs="?", default="/", metavar="PATH", help="a folder or a file (default: /)")
    ls.add_argument("-R", "--recursive", action="store_true", help="also list everything below it")
    ls.add_argument("-l", "--long", action="store_true", help="also show size, time, SHA-256, volume and commit")

    find = command(subs, "find", "find files by name; if the pattern begins with a slash, by path")
    find.add_argument("pattern", metavar="PATTERN", help="* stands for any text, ? for one character, [..] for one of those listed; quote it for the shell")
    find.add_argument("-i", "--ignore-case", action="store_true", help="take capital and small letters as the same; every name of the archive is compared")
    find.add_argument("-l", "--long", action="store_true", help="also show size, time, SHA-256, volume and commit")

    history = command(subs, "history", "show all versions of a file, the newest first")
    history.add_argument("path", metavar="PATH", help="a file of the archive")

    where = command(subs, "where", "show which volumes have a file, and where they and their copies are")
    where.add_argument("path", metavar="PATH", help="a file of the archive")

    get = command(subs, "get", "copy files and folders out of the archive, and name the volumes that are needed but not at hand")
    get.add_argument("path", nargs="+", metavar="PATH", help="a file or folder of the archive")
    get.add_argument("dir", metavar="DIR", help="the local folder to copy into")
    get.add_argument("--as-of", metavar="TIME", help="copy what the archive had at that time: a date, or a date and time such as 2026-11-26T12:00:00Z")
    get.add_argument("--force", action="store_true", help="replace existing local files; without it those with other bytes count as failures")

    check = command(subs, "check", "compare closed images with their digests, and with --data each file")
    check.add_argument("volume", nargs="*", metavar="VOLUME", help="labels of volumes (default: all closed ones)")
    check.add_argument("--data", action="store_true", help="also compare each file; also of open volumes, if they are named")
    check.add_argument("--remotes", action="store_true", help="also compare the copies on remotes")
    check.add_argument("--sample", type=int, metavar="N", help="check N volumes, chosen at random")
    check.add_argument("--oldest", action="store_true", help="check the volume whose last check is longest ago, or N of them with --sample")
    check.add_argument("--stale", metavar="AGE", help="then also fail for all that 'status --check --stale AGE' names")

    add_disc(check, False)

    report = command(subs, "report", "write a static HTML page: the volumes, a map of each by commit, and a search by path")
    report.add_argument("out", metavar="OUT.html", help="the page; an earlier one is replaced")

    mount = command(subs, "mount", "show the archive as a file tree, read only, until Ctrl-C or 'fusermount3 -u DIR'")
    mount.add_argument("dir", metavar="DIR", help="an empty folder, where 'latest', 'volumes/LABEL' and 'runs/TIME' are shown; this needs pyfuse3 (Debian: python3-pyfuse3)")

    status = command(subs, "status", "show how full each volume is, its copies, and what needs attention")
    status.add_argument("--check", action="store_true", help="print a line for each thing that needs attention, and nothing else; the status is 1 if there is one")
    status.add_argument("--stale", metavar="AGE", help="what was not checked, or not copied while it is open, for so long needs attention: 12h, 180d or 26w (default: 400d)")
    status.add_argument("--prometheus", metavar="FILE", help="also write the state as metrics, for the textfile collector of node exporter, which reads names that end in .prom")


def function(name: str) -> Callable[[argparse.Namespace], int]:
    """What a command does. Its own module alone is loaded: who asks the catalogue loads nothing that reads a volume."""
    if name in ("ls", "find", "history", "where"):
        from .lookups import find, history, ls, where

        return {"ls": ls, "find": find, "history": history, "where": where}[name]
    if name in ("get", "status", "report"):
        from .queries import get, report, status

        return {"get": get, "status": status, "report": report}[name]
    if name in ("init", "add", "diff", "rebuild"):
        from .commands import add, diff, init, rebuild

        return {"init": init, "add": add, "diff": diff, "rebuild": rebuild}[name]
    if name in ("adopt", "close", "copy", "check", "repair", "put-away", "retire"):
        from .closing import adopt, check, close, copy, put_away, repair, retire

        return {
            "adopt": adopt, "close": close, "copy": copy, "check": check, "repair": repair, "put-away": put_away, "retire": retire,
        }[name]
    return other(name)


def other(name: str) -> Callable[[argparse.Namespace], int]:
    """What a command does that has a module of its own."""
    if name == "burn":
        from .discs import burn

        return burn
    if name == "remote":
        from .remote_command import remote

        return remote
    if name == "mount":
        from .mount import mount

        return mount
    raise NotImplementedError(name)


INTERRUPTED = "interrupted: run the same command again to continue"


def main(words: Optional[List[str]] = None) -> int:
    """Runs a command, and gives its status."""
    if sys.version_info < (3, 11):
        print("udfburn-archive: needs Python 3.11 or later", file=sys.stderr)
        return 1
    try:
        complete_line(parser)
        closed = take_descriptors()
        arguments = parsed(parser(), words, closed)
        return run_printing(arguments, Tell(arguments.quiet, arguments.json, closed=closed, verbose=arguments.verbose))
    except SystemExit as end:
        return int(end.code or 0)
    except KeyboardInterrupt:
        # Before the command began, or after it.
        print(f"udfburn-archive: {INTERRUPTED}", file=sys.stderr)
        return 130


def run_printing(arguments: argparse.Namespace, tell: Tell) -> int:
    """Runs a command, and sees that what it printed was taken."""
    take_any_name()
    arguments.tell = tell
    try:
        tell.require_output()
        status = run(arguments, tell)
        tell.finish(arguments.command, status)
        return status
    except BrokenPipeError:
        drop_output()
        print("udfburn-archive: the standard output is closed", file=sys.stderr)
        return 1
    except OutputFailed as error:
        drop_output()
        print(f"udfburn-archive: {error}", file=sys.stderr)
        return 1


def run(arguments: argparse.Namespace, tell: Tell) -> int:
    """Does what a command asks for, and gives its status."""
    try:
        return function(arguments.command)(arguments)
    except (BrokenPipeError, OutputFailed):
        raise
    except KeyboardInterrupt:
        return tell.fail(INTERRUPTED, 130)
    except UsageError as error:
        return tell.fail(error, 2)
    except OSError as error:
        if error.errno in (errno.ENOSPC, errno.EDQUOT):
            return tell.fail(f"{shown(error.filename) if isinstance(error.filename, str) else 'a disk'}: has no room: make room, and run the same command again")
        return tell.fail(error)
    except (UdfburnError, ValueError) as error:
        return tell.fail(error)


if __name__ == "__main__":
    sys.exit(main())
