"""The commands that read the tree."""

from __future__ import annotations

import argparse
import os
from contextlib import closing
from typing import TYPE_CHECKING, Any, Dict, Tuple

from ..base.beneath import mode_for, status_given
from ..base.errors import UsageError
from ..base.escape import decode
from ..base.progress import Progress, moment, plural, size
from ..protocol import Name, Node, NodeKind, Path, Stat, as_text, escaped, path_of, printed, show, shown
from ..trees.client import Client
from ..trees.tree import walk
from ..wire.connection import find_program
from ..wire.refusals import expected
from .arguments import command, commit_number
from .common import progress_of, reader

if TYPE_CHECKING:
    from ..trees.fetch import Fetched
    from .arguments import Subs

PAST: Dict[str, Any] = dict(metavar="COMMIT", type=commit_number, help="read the tree as it was after this commit of 'udfburn log' (needs --image)")


def add_commands(subs: Subs) -> None:
    """The words of these commands."""
    add_get(subs)
    listing = command(subs, "ls", ls, "list a directory", "Each line has d for a directory or f for a file, and the name.")
    listing.add_argument("path", nargs="?", default="/", metavar="PATH", help="a directory or a file (default: /)")
    listing.add_argument("-l", dest="long", action="store_true", help="long form: kind, size, time and name")
    listing.add_argument("-R", dest="recursive", action="store_true", help="also list all directories below")
    listing.add_argument("--as-of", **PAST)
    compare = command(
        subs, "verify", verify, "compare a local file or folder with what is stored",
        "Reads every byte and names what is missing or differs. The status is 1 then.",
    )
    compare.add_argument("local", metavar="LOCAL", help="the local file or folder")
    compare.add_argument("path", metavar="PATH", help="the path where it was stored")
    compare.add_argument("--split", action="store_true", help="files may be in parts, as earlier versions stored them")
    compare.add_argument("--skip-odd", action="store_true", help="leave out what cannot be stored, and name it")
    compare.add_argument("--escape", action="store_true", help="names that UDF cannot encode were stored with --escape")
    compare.add_argument("--exact", action="store_true", help="report names that are only on the volume, too")
    compare.add_argument("--as-of", **PAST)
    picture = command(
        subs, "map", draw, "draw the medium of an image as a strip",
        "Writes an SVG picture: the blocks of each commit of 'udfburn log', what is left, and the files and directories after each"
        " commit. The image is only read; a daemon may write to it meanwhile.", volume=False,
    )
    picture.add_argument("image_path", metavar="IMAGE", help="the image to draw")
    picture.add_argument("output", metavar="OUT.svg", help="the SVG file; replaces an earlier picture, but no other file")


def add_get(subs: Subs) -> None:
    """The words of `get`."""
    words = command(
        subs, "get", get, "copy a file, or a directory with -r, from the volume",
        "A local file gets its name after all its bytes are on the disk; at the end all names are on the disk, too. The same command"
        " continues what was interrupted: complete files are compared, and not written again.",
    )
    words.add_argument("path", metavar="PATH", help="the file or directory on the volume, beginning with /")
    words.add_argument("local", metavar="LOCAL", help="the new file or folder; - means the standard output")
    words.add_argument("-r", "--recursive", action="store_true", help="copy a directory with everything below it")
    words.add_argument("--split", action="store_true", help="treat a file in parts, as earlier versions stored it (NAME.000, NAME.001, ..), as one file NAME")
    words.add_argument("--force", action="store_true", help="replace existing local files, and write into a folder that has other names")
    words.add_argument("--as-of", **PAST)


def get(arguments: argparse.Namespace) -> int:
    """Copies a file or a directory."""
    from ..trees.fetch import Fetcher, find_file, parts_of

    progress = progress_of(arguments)
    path = path_of(arguments.path)
    if arguments.local == "-":
        progress.bytes_only()
        if arguments.recursive:
            raise UsageError("a directory does not go to the standard output: name a folder")
    with reader(arguments) as client, client.held():
        if arguments.local == "-":
            with parts_of(client, [find_file(client, path, arguments.split)]) as files:
                for part in next(files)[1]:
                    progress.write(part)
            return 0
        fetcher = Fetcher(client, arguments.split, arguments.force, progress.told, progress.begin)
        try:
            if arguments.recursive:
                fetcher.tree(path, arguments.local)
            else:
                fetcher.file(path, local_target(arguments.local, path))
        finally:
            progress.end()
            for failure in fetcher.summary.failures:
                progress.fail(failure)
            got(fetcher.summary, arguments.recursive, progress)
    return 1 if fetcher.summary.failures else 0


def local_target(local: str, path: Path) -> str:
    """The local file that a file is copied to: in a folder it keeps its own name."""
    return os.path.join(local, decode(path[-1])) if os.path.isdir(local) and path else local


def got(summary: Fetched, recursive: bool, progress: Progress) -> None:
    """Says what was copied, also where that ended early."""
    words = f"got {plural(summary.files, 'file', 'files')}, {size(summary.bytes)}"
    words += f", {summary.same:,} were there" if summary.same else ""
    fields: Dict[str, object] = {"files": summary.files, "bytes": summary.bytes, "same": summary.same}
    if recursive:
        progress.result(words, **fields)
    else:
        progress.outcome = fields


def ls(arguments: argparse.Namespace) -> int:
    """Lists directories."""
    path = path_of(arguments.path)
    progress = progress_of(arguments)
    with reader(arguments) as client, client.held():
        if client.stat(path).kind is NodeKind.FILE:
            list_names(client, path[:-1], (Name(NodeKind.FILE, path[-1]),), arguments, progress)
            return 0
        for at, names in walk(client, path) if arguments.recursive else [(path, client.list(path))]:
            if arguments.recursive and not arguments.json:
                progress.say(f"{printed(at)}:")
            list_names(client, at, names, arguments, progress)
    return 0


def list_names(client: Client, at: Path, names: Tuple[Name, ...], arguments: argparse.Namespace, progress: Progress) -> None:
    """Prints the names of a directory."""
    paths = [at + (name.name,) for name in names]
    with closing(client.ask_all(map(Stat, paths if arguments.long or arguments.json else ()))) as nodes:
        for path, name in zip(paths, names):
            letter = "d" if name.kind is NodeKind.DIRECTORY else "f"
            answer = next(nodes, None)
            if answer is None:
                progress.say(f"{letter} {escaped(name.name)}")
                continue
            node = expected(Node, Stat(path), answer)
            progress.say(
                f"{letter} {node.size:>9} {moment(node.moment)} {escaped(name.name)}",
                path=show(path), kind=node.kind.name.lower(), size=node.size, moment=node.moment,
            )


def verify(arguments: argparse.Namespace) -> int:
    """Compares."""
    from ..trees.compare import verify_tree

    progress = progress_of(arguments)
    progress.quiet, quiet = True, progress.quiet
    with reader(arguments) as client:
        result = verify_tree(client, arguments.local, path_of(arguments.path), arguments.split, arguments.skip_odd, progress.told, arguments.escape, progress.begin)
    progress.end()
    progress.quiet = quiet
    for line in result.skipped:
        progress.left_out(line)
    differences = result.differences + [(path, "is only on the volume") for path in result.extra if arguments.exact]
    for path, how in differences:
        progress.say(f"{escaped(path)}: {how}", did="differs", path=path, how=how)
    found = "all are there" if not differences else plural(len(differences), "difference", "differences")
    words = f"{plural(result.files, 'file', 'files')}, {size(result.bytes)}: {found}"
    if result.extra and not arguments.exact:
        words += f" ({plural(len(result.extra), 'name is', 'names are')} only on the volume)"
    progress.result(words, files=result.files, bytes=result.bytes, differences=len(differences), extra=len(result.extra))
    return 1 if differences else 0


def draw(arguments: argparse.Namespace) -> int:
    """Draws the medium."""
    from ..image.map import draw_map
    from ..local.saving import require_own, save

    require_own(arguments.output, (b"<svg",), "a picture")
    picture = draw_map(arguments.image_path, find_program(arguments.program))
    save(arguments.output, [picture.encode()], None, True, mode_for(status_given(arguments.image_path)))
    progress_of(arguments).result(f"drew {shown(arguments.output)}", path=as_text(arguments.output))
    return 0


__all__ = ["add_commands", "draw", "get", "ls", "verify"]
