"""The commands that change the tree."""

from __future__ import annotations

import argparse
import os
from typing import TYPE_CHECKING, Dict, List, Set, Tuple

from ..base.errors import Exists, IntoItself, IsRoot, NoParent, NotDirectory, NotEmpty, UsageError
from ..base.escape import encode
from ..base.manifest import MANIFEST, PAYLOAD_FOLDER
from ..base.progress import Progress, plural, size
from ..local import not_kept
from ..local.sources import Source, why_not
from ..protocol import NodeKind, Path, path_of, printed, show, shown
from ..trees.client import Client
from ..trees.stored import find_file
from ..trees.tree import ImportOptions, ImportSummary, Importer
from ..trees.walk import remove_paths, walk
from .arguments import command
from .common import NOT_STORED, progress_of, writer
from .seal import add_manifest_only

if TYPE_CHECKING:
    from .arguments import Subs


def add_commands(subs: Subs) -> None:
    """The words of these commands."""
    add_put(subs)
    mkdir_words = command(subs, "mkdir", mkdir, "make directories", "Each one is made once, however often the command is repeated.", ledger=True)
    mkdir_words.add_argument("path", nargs="+", metavar="PATH", help="a new directory, such as /a/b")
    mkdir_words.add_argument("-p", "--parents", action="store_true", help="also make missing parents; an existing directory is no error")
    move = command(subs, "mv", mv, "rename or move a file or a directory", "An existing file or directory is never replaced.", ledger=True)
    move.add_argument("path", metavar="FROM", help="the file or directory; everything below it moves with it")
    move.add_argument("to", metavar="TO", help="the new path; with a slash at its end, the directory to move FROM into")
    remove = command(
        subs, "rm", rm, "remove files and directories",
        "The blocks stay on the medium: 'get', 'ls' and 'verify' still read them with --as-of.", ledger=True,
    )
    remove.add_argument("path", nargs="+", metavar="PATH", help="a file or an empty directory; any directory with -r")
    remove.add_argument("-r", "--recursive", action="store_true", help="remove directories with everything below them")
    remove.add_argument("--split", action="store_true", help="remove a file in parts, as earlier versions stored it, by its own name")
    again = command(
        subs, "resume", resume, "finish what an earlier command began",
        "Sends each request again that has no reply in the ledger, under its number. Every command that changes the tree does this first.", ledger=True,
    )
    again.add_argument("--forget", action="store_true", help="drop requests without a reply, and go on with the volume that is there")


def add_put(subs: Subs) -> None:
    """The words of `put`."""
    words = command(
        subs, "put", put, "store files and folders",
        "First checks that everything fits, and names all that does not. Files whose bytes are already there are left alone, so the same"
        " command finishes what was interrupted, and later stores only what has changed.", ledger=True,
    )
    words.add_argument("local", nargs="+", metavar="LOCAL", help="a file, or a folder with -r")
    words.add_argument("path", metavar="PATH", help="the path of LOCAL on the volume; with a slash at its end, or with several LOCALs, the directory to put them into; a single folder put to / becomes the root")
    words.add_argument("-r", "--recursive", action="store_true", help="store folders with everything in them")
    words.add_argument("-p", "--parents", action="store_true", help="make missing parent directories")
    words.add_argument("--split", action="store_true", help="a file takes the place of its parts, as earlier versions stored it (NAME.000, ..)")
    words.add_argument("--rewrite", action="store_true", help="store files again even if their bytes are already there")
    words.add_argument("--skip-same", action="store_true", help="leave files alone whose bytes are already there (the default)")
    words.add_argument("--skip-odd", action="store_true", help="leave out what cannot be stored, and name it: symbolic links, pipes, sockets, devices, and names that UDF cannot encode")
    words.add_argument("--escape", action="store_true", help="store names that UDF cannot encode in an escaped form, which 'get' restores")
    words.add_argument("--delete-source", action="store_true", help="delete a local file after its reply is in the ledger and confirmed")
    words.add_argument("--verify", action="store_true", help="read the bytes of each file back, before its source is deleted")
    words.add_argument("--seal", action="store_true", help="seal PATH afterwards, as 'seal' does; LOCAL is stored as PATH/data, and sources are deleted last")
    add_manifest_only(words)
    words.add_argument("--moment", choices=("mtime", "now"), default="mtime", help="the time that files get: their time of modification, or now")


def targets(locals_: List[str], path: str, escape: bool) -> List[Tuple[str, Path]]:
    """The path that each local file or folder becomes."""
    names = path_of(path)
    becomes_root = not names and os.path.isdir(locals_[0])
    if len(locals_) == 1 and (becomes_root or not path.endswith("/")):
        return [(locals_[0], names)]
    return [(local, names + (own_name(local, escape),)) for local in locals_]


def own_name(local: str, escape: bool) -> str:
    """The name of a local file as it is stored."""
    name = os.path.basename(os.path.abspath(local))
    spelling = encode(name)
    fault = (None if escape else why_not(name)) or why_not(spelling)
    if fault:
        raise UsageError(f"{shown(local)}: {fault}" + (" (--escape stores it under an escaped name)" if why_not(spelling) is None else ""))
    return spelling


def put(arguments: argparse.Namespace) -> int:
    """Stores files and folders."""
    if arguments.verify and arguments.dry_run:
        raise UsageError("--dry-run stores nothing that --verify could read back")
    if arguments.manifest_only and not arguments.seal:
        raise UsageError("--manifest-only goes with --seal")
    if arguments.rewrite and arguments.skip_same:
        raise UsageError("--rewrite stores again what --skip-same leaves alone")
    fields = ("recursive", "parents", "rewrite", "split", "skip_odd", "escape", "delete_source", "verify", "dry_run", "moment", "image")
    options = ImportOptions(**{name: getattr(arguments, name) for name in fields}, delete_last=arguments.seal)
    options = options._replace(parents=options.parents or arguments.seal)
    progress = progress_of(arguments)
    with writer(arguments) as client:
        importer = Importer(client, options, progress.told, progress.stored)
        planned = importer.plan(targets(arguments.local, payload_of(arguments), arguments.escape))
        sources = planned.files + [job.source for job in importer.same]
        if arguments.seal and arguments.manifest_only:
            refuse_manifests(sources)
        progress.begin(len(sources), sum(source.identity.size for source in sources))
        try:
            summary = importer.run(planned)
            sealed = seal_stored(client, importer, arguments) if arguments.seal else ""
        finally:
            progress.end()
            # Also where it ends early: what was not stored or not deleted by then is named.
            for line in importer.summary.skipped:
                progress.left_out(line)
            for line in importer.summary.failures:
                progress.fail(line)
    if summary.not_kept:
        progress.note(not_kept.line(summary.not_kept), did="not kept", **summary.not_kept)
    progress.result(put_words(summary, options) + sealed, **vars(summary), sealed=bool(sealed))
    return 1 if summary.failures else 0


def payload_of(arguments: argparse.Namespace) -> str:
    """The path that LOCALs become or go into. Where PATH is sealed it is a directory: one folder becomes its payload, all else goes
    into that."""
    path: str = arguments.path
    if not arguments.seal:
        return path
    payload = show(path_of(path) if arguments.manifest_only else path_of(path) + (PAYLOAD_FOLDER,))
    folder = len(arguments.local) == 1 and os.path.isdir(arguments.local[0])
    return payload if folder else payload.rstrip("/") + "/"


def refuse_manifests(sources: List[Source]) -> None:
    """Raises where a local file would have the path of a manifest: sealing would replace it, and its source may be gone by then."""
    for source in sources:
        if source.path[-1:] == (MANIFEST,):
            raise UsageError(f"{shown(source.local)}: has the name of a manifest, which sealing writes: leave --seal out, or store LOCAL as a bag")


def seal_stored(client: Client, importer: Importer, arguments: argparse.Namespace) -> str:
    """Seals what was stored, and then deletes the sources where that is asked for. What was done, in words."""
    from ..trees.seal import seal_directory, seal_words

    path, progress = path_of(arguments.path), progress_of(arguments)
    if arguments.dry_run:
        progress.told("would seal", path, 0, 0)
        return ""
    if importer.summary.failures:
        importer.summary.failures.append(f"{printed(path)}: is not sealed, because not everything was stored; no source was deleted")
        return ""
    words = seal_words(seal_directory(client, path, arguments.manifest_only, told=progress.told))
    importer.delete_kept()
    return f"; {words}"


def put_words(summary: ImportSummary, options: ImportOptions) -> str:
    """What `put` did, in a line."""
    words = [f"{'would store' if options.dry_run else 'stored'} {plural(summary.files, 'file', 'files')}, {size(summary.bytes)}"]
    words += [f"made {plural(summary.folders, 'directory', 'directories')}"] if summary.folders else []
    words += [f"{summary.same} were there"] if summary.same else []
    words += [f"read back {summary.verified}"] if options.verify else []
    words += [f"deleted {summary.deleted}"] if options.delete_source else []
    words += [f"{summary.blocks} of {summary.left} blocks"] if summary.blocks is not None else []
    return ", ".join(words)


def finish_first(client: Client, arguments: argparse.Namespace) -> None:
    """Finishes what an earlier command began, so that it changes nothing after this one has looked."""
    if not arguments.dry_run:
        client.resume()


def mkdir(arguments: argparse.Namespace) -> int:
    """Makes directories."""
    progress = progress_of(arguments)
    with writer(arguments) as client, client.held():
        finish_first(client, arguments)
        planned: Set[Path] = set()
        for path in map(path_of, arguments.path):
            if arguments.dry_run:
                for missing in would_make(client, path, arguments.parents, planned):
                    progress.told("would make", missing, 0, 0)
            elif arguments.parents:
                for made in client.makedirs(path):
                    progress.told("made", made, 0, 0)
            else:
                progress.told("made", path, 0, client.mkdir(path))
    return 0


def would_make(client: Client, path: Path, parents: bool, planned: Set[Path]) -> List[Path]:
    """The directories that would be made, which are added to those planned; or the refusal."""
    missing: List[Path] = []
    for depth in range(1, len(path) + 1):
        node = client.find(path[:depth]) if path[:depth] not in planned else None
        if node is not None and node.kind is NodeKind.FILE and (parents or depth < len(path)):
            raise NotDirectory(show(path[:depth]))
        if node is None and path[:depth] not in planned:
            missing.append(path[:depth])
    if not parents and not missing:
        raise Exists(show(path))
    if not parents and missing != [path]:
        raise NoParent(show(path))
    planned.update(missing)
    return missing


def mv(arguments: argparse.Namespace) -> int:
    """Renames."""
    progress = progress_of(arguments)
    path, to = path_of(arguments.path), path_of(arguments.to)
    if arguments.to.endswith("/"):
        to += path[-1:]
    with writer(arguments) as client:
        if arguments.dry_run:
            client.stat(path)
            if to[: len(path)] == path != to:
                raise IntoItself(show(path))
            would_make(client, to, False, set())
            progress.told(f"would move {printed(path)} to", to, 0, 0)
        else:
            progress.told(f"moved {printed(path)} to", to, 0, client.rename(path, to))
    return 0


def rm(arguments: argparse.Namespace) -> int:
    """Removes, once all paths were found."""
    progress = progress_of(arguments)
    with writer(arguments) as client, client.held():
        finish_first(client, arguments)
        planned: Set[Path] = set()
        found: Dict[Path, None] = {}
        for path in map(path_of, arguments.path):
            paths = paths_below(client, path, arguments)
            found.update(dict.fromkeys(paths))
            if arguments.dry_run:
                would_remove(client, paths, planned)
                for gone in paths:
                    progress.told("would remove", gone, 0, 0)
        if arguments.dry_run:
            return 0
        if len(found) == 1:
            (path,) = found
            progress.told("removed", path, 0, client.remove(path))
        else:
            remove_paths(client, found, progress.told)
    return 0


def would_remove(client: Client, paths: List[Path], planned: Set[Path]) -> None:
    """Adds paths to those that would be gone. Raises where a directory would not be empty."""
    for path in paths:
        if not path:
            raise IsRoot(show(path))
        if client.stat(path).kind is NodeKind.DIRECTORY and any(path + (name.name,) not in planned for name in client.list(path)):
            raise NotEmpty(show(path))
        planned.add(path)


def paths_below(client: Client, path: Path, arguments: argparse.Namespace) -> List[Path]:
    """What goes with a path, in the order in which it goes: the leaves first, and the last part of a file before the others."""
    if arguments.split and client.find(path) is None:
        return find_file(client, path, True).removal()
    if client.stat(path).kind is NodeKind.FILE or not arguments.recursive:
        return [path]
    found = [at + (name.name,) for at, names in walk(client, path) for name in names]
    return sorted(found, key=lambda below: -len(below)) + ([path] if path else [])


def resume(arguments: argparse.Namespace) -> int:
    """Finishes what is pending."""
    progress = progress_of(arguments)
    with writer(arguments) as client:
        if arguments.dry_run:
            known = client.session().ledger.volume(client.endpoint.key())
            for waiting in client.session().ledger.pending(known) if known else ():
                progress.say(f"would send number {waiting.number} again: {waiting.path}", did="would send", number=waiting.number, path=waiting.path)
            return 0
        if arguments.forget:
            drop_pending(client, progress)
            return 0
        done = client.resume()
        lost = client.take_not_stored()
        for number, path, code, commit in done:
            how = NOT_STORED if number in lost else "done" if not code else f"refused: {code.name}"
            progress.say(f"number {number}, {path}: {how}, commit {commit}", did="resumed", number=number, path=path, code=int(code), commit=commit)
        progress.result(f"{plural(len(done), 'request was', 'requests were')} pending", count=len(done))
    return 0


def drop_pending(client: Client, progress: Progress) -> None:
    """Drops what is pending, and says which volume the next request goes to."""
    ledger = client.session().ledger
    before = {volume.id for volume in ledger.volumes()}
    for gone in client.forget():
        progress.say(f"dropped {gone}", did="dropped", path=gone)
    volume = client.session().volume()
    known = volume.id in before
    line = f"goes on at number {volume.latest + 1}, with {'a volume that the ledger knows' if known else 'a volume that is new to the ledger'}"
    progress.note(line, did="goes on", number=volume.latest + 1, known=known)


__all__ = ["add_commands", "mkdir", "mv", "put", "resume", "rm"]
