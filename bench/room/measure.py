"""Shows the blocks by kind of an archive of documents. bench/room/run says how."""
from __future__ import annotations

import argparse
import os
import shutil
import subprocess
import sys
import tempfile
from collections import Counter
from pathlib import Path
from typing import Optional, Sequence

TOP = Path(__file__).resolve().parent.parent.parent
sys.path[:0] = [str(TOP / "clients" / "python"), str(TOP / "bench" / "beside"), str(Path(__file__).resolve().parent)]

from documents import make_alike, make_documents  # noqa: E402
from udfburn.image.blocks import data_blocks  # noqa: E402
from udfburn.image.past import commits  # noqa: E402
from udfburn.protocol.units import Address  # noqa: E402
from udfburn.reader import FileType, Medium  # noqa: E402
from udfburn.reader.basics import INSIDE, PARTITION, number_of  # noqa: E402
from udfburn.reader.entry import read_entry  # noqa: E402
from ways import bytes_of, installed  # noqa: E402

BLOCK = 2048
KINDS = ("format", "data", "entries", "directories", "tables", "VAT ICBs", "zeros between")


def blocks_by_kind(image: str, program: str) -> Counter[str]:
    """How many blocks of each kind an image has, from its first to its last."""
    found: Counter[str] = Counter()
    with Medium(image) as medium:
        ends = [commit.address for commit in commits(image, program)]
        found["format"], found["commits"] = ends[0] + 1, len(ends) - 1
        for begin, end in zip(ends, ends[1:]):
            found["zeros between"] += end - begin
            for kind, count in of_commit(medium, begin + 1, end):
                found[kind] += count
                found["zeros between"] -= count
        found["zeros between"] += medium.blocks - ends[-1] - 1
    return found


def of_commit(medium: Medium, begin: int, end: int) -> list[tuple[str, int]]:
    """The blocks of a commit by their kinds. Data that looks like an entry lies in the data of a true one, which comes after it."""
    found: list[tuple[str, int]] = []
    at = end
    while at >= begin:
        place = Address(at)
        block = medium.block(place)
        entry = read_entry(block, number_of(place))[0] if block is not None else None
        if entry is None:
            at -= 1
            continue
        kind = {FileType.FILE: "entries", FileType.DIRECTORY: "directories", FileType.TABLE: "VAT ICBs"}[entry.kind]
        data = {FileType.FILE: "data", FileType.DIRECTORY: "directories", FileType.TABLE: "tables"}[entry.kind]
        own = [extent for extent in entry.extents if extent.first + PARTITION >= begin]
        found += [(kind, 1)] + [(data, extent.end - extent.first) for extent in own]
        at = min([extent.first + PARTITION for extent in own] + [at]) - 1
    return found


def floor_of(folder: str) -> int:
    """The blocks of the files' bytes, and five for each: its entry, a directory's names and entry, a table, a VAT ICB."""
    paths = [os.path.join(at, name) for at, _, names in os.walk(folder) for name in names]
    return sum(data_blocks(os.path.getsize(path)) + 5 for path in paths)


def run(*words: str, **extra: str) -> None:
    subprocess.run(words, check=True, env={**os.environ, **extra}, stdout=subprocess.DEVNULL)


def archived(program: str, room: str, source: str, nodes: Optional[int], words_of_add: Sequence[str]) -> tuple[int, Counter[str]]:
    """Adds and closes an archive; gives how many volumes it takes, and their blocks."""
    archive = os.path.join(room, "archive")
    words = [sys.executable, "-m", "udfburn.archive"]
    extra = {"PYTHONPATH": installed(room), "UDFBURN": program}
    run(*words, "init", archive, "--quiet", *([] if nodes is None else ["--nodes", str(nodes)]), **extra)
    for command in (["add", *words_of_add, source], ["close"]):
        run(*words, *command, "--quiet", "--archive", archive, **extra)
    images = sorted(Path(archive, "closed").glob("*.img"))
    found: Counter[str] = Counter()
    for image in images:
        found.update(blocks_by_kind(str(image), program))
    assert sum(found[kind] for kind in KINDS) * BLOCK == sum(image.stat().st_size for image in images)
    shutil.rmtree(archive)
    return len(images), found


def others(room: str, source: str) -> list[tuple[str, int]]:
    """The bytes of a repository of restic and of one of borg."""
    found: list[tuple[str, int]] = []
    repository = os.path.join(room, "repository")
    keys = {"RESTIC_PASSWORD": "x", "RESTIC_REPOSITORY": repository, "XDG_CACHE_HOME": os.path.join(room, "cache"),
            "BORG_BASE_DIR": os.path.join(room, "base"), "BORG_UNKNOWN_UNENCRYPTED_REPO_ACCESS_IS_OK": "yes"}
    for name, commands in (("restic", (["init", "-q"], ["backup", "-q", source])),
                           ("borg", (["init", "-e", "none", repository], ["create", f"{repository}::one", source]))):
        if shutil.which(name):
            for command in commands:
                run(name, *command, **keys)
            found.append((name, bytes_of(repository)))
            shutil.rmtree(repository)
    return found


def measure(program: str, room: str, asked: argparse.Namespace) -> None:
    source = os.path.join(room, "documents")
    size = make_documents(source, asked.files, asked.bytes) if asked.alike is None else make_alike(source, asked.files, asked.alike)
    folders, least = sum(1 for _ in os.walk(source)) - 1, floor_of(source)
    small = sum(os.path.getsize(os.path.join(at, name)) <= INSIDE for at, _, names in os.walk(source) for name in names)
    print(f"{asked.files:,} files, {size / 1e6:.1f} MB, {folders} folders; {small} files are inside their entries; floor {least * BLOCK / 1e6:.1f} MB\n")
    print(f"| Nodes a volume | Volumes | MB | Of the floor | Of the documents | {' | '.join(f'{kind}, blocks a file' for kind in KINDS)} |\n|{'---|' * 12}")
    for nodes in asked.nodes or [None]:
        count, found = archived(program, room, source, nodes, ["--bundle"] if asked.bundle else [])
        blocks = sum(found[kind] for kind in KINDS)
        cells = [str(nodes or "as init has it"), str(count), f"{blocks * BLOCK / 1e6:.1f}", f"{blocks / least:.2f}", f"{blocks * BLOCK / size:.2f}"]
        print(f"| {' | '.join(cells + [f'{found[kind] / asked.files:.2f}' for kind in KINDS])} |", flush=True)
    for name, count in others(room, source):
        print(f"| {name} | | {count / 1e6:.1f} | {count / least / BLOCK:.2f} | {count / size:.2f} | {'| ' * len(KINDS)}")


def main(words: Sequence[str]) -> int:
    parser = argparse.ArgumentParser(prog="bench/room/run")
    parser.add_argument("--files", type=int, default=4000)
    parser.add_argument("--bytes", type=int, default=39_000_000)
    parser.add_argument("--nodes", type=int, action="append", help="nodes of a volume, at most; may be given several times")
    parser.add_argument("--alike", type=int, metavar="N", help="instead of documents, files of N bytes in one folder")
    parser.add_argument("--bundle", action="store_true", help="add them with --bundle")
    parser.add_argument("--folder", help="where the archive is made")
    parser.add_argument("program", metavar="UDFBURN")
    asked = parser.parse_args(words)
    with tempfile.TemporaryDirectory(prefix="bench.", dir=asked.folder) as room:
        measure(os.path.abspath(asked.program), room, asked)
    return 0


if __name__ == "__main__":
    sys.exit(main(sys.argv[1:]))
