"""Bags as RFC 8493 has them, validated by what that document says, and by tools that others wrote; and copies of volumes by other
readers. Nothing here uses the client's own manifests or its writer."""

from __future__ import annotations

import hashlib
import os
import re
import shutil
import subprocess
import sys
from typing import Dict, List, Optional, Set

from udfburn.reader import FileType, Medium, Volume


MISSING: Set[str] = set()


def copy_by_reader(image: str, folder: str) -> None:
    """Copies all of an image into a new folder, by the reader that shares no code with what writes. Names are those of the volume."""
    with Medium(image) as medium:
        volume = Volume(medium)
        for node in volume.state().walk():
            path = os.path.join(folder, *node.path)
            if node.kind is FileType.DIRECTORY:
                os.mkdir(path)
            else:
                with open(path, "wb") as file:
                    file.write(volume.read(node).data)


def not_tried(tool: str) -> bool:
    """Says once that a tool is not installed."""
    if tool not in MISSING:
        MISSING.add(tool)
        print(f"bags: not tried: {tool}, which is not installed", file=sys.stderr)
    return False


def copy_by_udfclient(image: str, folder: str, label: str, moment: int) -> bool:
    """Copies all of an image into a new folder, by udfclient, where that is installed. It has names of printable ASCII alone."""
    if shutil.which("udfclient") is None:
        return not_tried("udfclient")
    os.mkdir(folder)
    where = ":".join(["%016x%s" % (moment, label), label, label, label])
    words = ["udfclient", "-b", "2048", image]
    done = subprocess.run(words, input=('get "%s" all\nquit\n' % where).encode(), cwd=folder, capture_output=True, check=False, timeout=600)
    assert done.returncode == 0 and os.path.isdir(os.path.join(folder, "all")), done
    return True


def sha256_of(path: str) -> str:
    with open(path, "rb") as file:
        return hashlib.sha256(file.read()).hexdigest()


def sha256sum(folder: str, manifest: str) -> "subprocess.CompletedProcess[str]":
    """What `sha256sum` says of a manifest in a folder."""
    return subprocess.run(["sha256sum", "--strict", "-c", manifest], cwd=folder, capture_output=True, text=True, check=False, errors="surrogateescape")


def files_below(folder: str) -> List[str]:
    """The files below a folder, by their paths from it on."""
    return sorted(os.path.relpath(os.path.join(at, name), folder) for at, _, names in os.walk(folder) for name in names)


def listed(folder: str, manifest: str) -> Dict[str, str]:
    """The files that a manifest lists, with their digests, as section 2.1.3 has it."""
    with open(os.path.join(folder, manifest), encoding="utf-8", newline="") as file:
        text = file.read()
    found = {}
    for line in re.split("\r\n|\r|\n", text):
        if line:
            digits, path = re.fullmatch("([0-9a-f]{64})[ \t]+(.+)", line).groups()  # type: ignore[union-attr]
            found[re.sub("%(0A|0D|25)", lambda code: chr(int(code[1], 16)), path)] = digits
    return found


def faults(folder: str) -> List[str]:
    """What makes a folder no valid bag (RFC 8493, section 3), and its elements false."""
    found = []
    with open(os.path.join(folder, "bagit.txt"), "rb") as file:
        if file.read() != b"BagIt-Version: 1.0\nTag-File-Character-Encoding: UTF-8\n":
            found.append("bagit.txt")
    payload, tags = listed(folder, "manifest-sha256.txt"), listed(folder, "tagmanifest-sha256.txt")
    below = [path for path in files_below(folder) if path.startswith("data/")]
    if sorted(payload) != below:
        found.append(f"the manifest lists {sorted(payload)}, and not {below}")
    outside = [path for path in files_below(folder) if not path.startswith("data/") and path != "tagmanifest-sha256.txt"]
    if sorted(tags) != outside:
        found.append(f"the tag manifest lists {sorted(tags)}, and not {outside}")
    found += [path for path, digits in {**payload, **tags}.items() if path in below + outside and sha256_of(os.path.join(folder, path)) != digits]
    with open(os.path.join(folder, "bag-info.txt"), encoding="utf-8") as file:
        info = dict(line.rstrip("\n").split(": ", 1) for line in file if not line.startswith(" "))
    size = sum(os.path.getsize(os.path.join(folder, path)) for path in below)
    if info.get("Payload-Oxum") != f"{size}.{len(below)}" or not re.fullmatch(r"\d{4}-\d\d-\d\d", info.get("Bagging-Date", "")):
        found.append(f"bag-info.txt: {info}")
    return found


def bagit(folder: str) -> Optional[bool]:
    """Whether bagit's own tool finds a bag valid; None where that is not installed."""
    tool = shutil.which("bagit.py") or shutil.which("bagit")
    if tool is not None:
        return subprocess.run([tool, "--validate", folder], capture_output=True, check=False).returncode == 0
    has_module = subprocess.run([sys.executable, "-c", "import bagit"], capture_output=True, check=False).returncode == 0
    if not has_module:
        not_tried("bagit's own tool")
        return None
    return subprocess.run([sys.executable, "-m", "bagit", "--validate", folder], capture_output=True, check=False).returncode == 0
