"""What a bag (RFC 8493) takes beside its manifests, which `udfburn.base.manifest` has."""

from __future__ import annotations

from hashlib import sha256
from typing import Mapping

from ..base.manifest import ManifestLine, bag_manifest
from ..protocol import Path


def manifest_size(path: Path) -> int:
    """The bytes of the line that a file has in a manifest."""
    return len(bag_manifest([ManifestLine(bytes(32), path)]))


def info(fields: Mapping[str, str], payload_bytes: int, payload_files: int) -> bytes:
    """`bag-info.txt` (RFC 8493 2.2.2), with the Payload-Oxum."""
    whole = {**fields, "Payload-Oxum": f"{payload_bytes}.{payload_files}"}
    return "".join(f"{name}: {' '.join(value.split())}\n" for name, value in whole.items()).encode()


def tag_manifest(files: Mapping[Path, bytes]) -> bytes:
    """The manifest of the tag files (RFC 8493 2.2.1), sorted by their paths."""
    return bag_manifest(ManifestLine(sha256(data).digest(), path) for path, data in sorted(files.items()))
