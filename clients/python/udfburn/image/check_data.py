"""Every byte of the files of an image, compared with the digests that cover them: of manifests on the volume, and of a ledger."""

from __future__ import annotations

from hashlib import sha256
from typing import Callable, Dict, Iterator, List, Optional

from ..base.errors import Damaged, NotFound
from ..protocol import Path, show
from ..protocol.units import Address, Commit
from ..reader import FileType, StateNode
from .coverage import Coverage

OnDifference = Callable[[str, str, Optional[Commit]], None]
"""Is called for each file that is not as it should be: its path, how it differs, and the commit that wrote it."""


class Result:
    """Counts of files and bytes, of files that some digest covers and of those that none does, and of what is not as it should be."""

    def __init__(self) -> None:
        self.files = self.bytes = self.covered = self.uncovered = self.damaged = 0
        self.by_ledger = self.by_manifest = 0


def check_data(coverage: Coverage, path: Path, found: OnDifference) -> Result:
    """Reads each file at or below a path, in the order of the medium, and compares it."""
    result = Result()
    if path not in coverage.nodes:
        broken = next((top for top in ((), *coverage.broken) if top not in coverage.nodes and is_below(path, top)), None)
        if broken is not None:
            raise Damaged(f"{show(broken)}: its entry cannot be read: 'udfburn-client salvage' gives back what can be read")
        raise NotFound(show(path))
    coverage.look_at_manifests()
    for broken in coverage.broken:
        if is_below(broken, path):
            tell_difference(result, found, broken, "its entry cannot be read", None)
    for listed, source in coverage.missing:
        if is_below(listed, path) and listed not in coverage.broken:
            tell_difference(result, found, listed, f"is not there, and {source} lists it", None)
    for manifest, fault in coverage.faults:
        if is_below(manifest, path):
            tell_difference(result, found, manifest, fault, coverage.commit_of(coverage.nodes[manifest]))
    for known in coverage.unreached():
        if is_below(known.path, path):
            tell_difference(result, found, known.path, "the ledger has it, and no chain of tables reaches the commit that wrote it", known.commit)
    for node in in_order(coverage, path):
        faults = faults_of(coverage, node, result)
        if faults:
            tell_difference(result, found, node.path, "; ".join(faults), coverage.commit_of(node))
    return result


def is_below(path: Path, top: Path) -> bool:
    """Whether a path is another one or below it."""
    return path[: len(top)] == top


def tell_difference(result: Result, found: OnDifference, path: Path, how: str, commit: Optional[Commit]) -> None:
    """Counts what is not as it should be, and reports it."""
    result.damaged += 1
    found(show(path), how, commit)


def in_order(coverage: Coverage, path: Path) -> Iterator[StateNode]:
    """The files at or below a path, in the order of their bytes on the medium: a disc is read once, from its beginning on."""
    files = [node for node in coverage.nodes.values() if node.kind is FileType.FILE and is_below(node.path, path)]
    yield from sorted(files, key=lambda node: node.data if node.data is not None else node.address)


def faults_of(coverage: Coverage, node: StateNode, result: Result) -> List[str]:
    """What is wrong with a file. Counts it."""
    whole = sha256()
    missing: List[Address] = []
    for run in coverage.volume.pieces(node):
        whole.update(run.data)
        missing += run.missing
    result.files += 1
    result.bytes += node.size
    wanted = coverage.of(node)
    result.covered += bool(wanted)
    result.uncovered += not wanted
    result.by_ledger += any(one.address is None for one in wanted)
    result.by_manifest += any(one.address is not None for one in wanted)
    if missing:
        return [f"block {missing[0]} cannot be read" + (f", nor {len(missing) - 1} others" if len(missing) > 1 else "")]
    digest = whole.digest()
    sent = coverage.sent(node)
    faults = []
    if sent is not None and (sent.size, sent.moment) != (node.size, node.moment):
        faults.append(f"its entry says {node.size} bytes, moment {node.moment}, and {sent.size} bytes, moment {sent.moment} were sent")
    differing: Dict[bytes, List[str]] = {}
    for one in wanted:
        if one.sha256 == digest:
            continue
        if one.address is not None and node.address > one.address:
            faults.append(f"was stored again after {one.source} was written: seal the directory again")
        else:
            hurt = " (which is itself not as it was stored)" if one.source in coverage.hurt else ""
            differing.setdefault(one.sha256, []).append(one.source + hurt)
    proved = any(one.address is None and one.sha256 == digest for one in wanted)
    what = "is as the ledger sent it, and a manifest says other bytes" if proved else "has other bytes than were stored"
    faults += [
        f"{what}: SHA-256 {digest.hex()} is there, and {wrong.hex()} is in {' and in '.join(sources)}" for wrong, sources in differing.items()
    ]
    return faults


__all__ = ["OnDifference", "Result", "check_data"]
