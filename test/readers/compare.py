"""What readers report about a volume, compared with the tree that its requests make. Each function lists what differs."""

from __future__ import annotations

import os
import subprocess
from pathlib import Path
from typing import Callable, Dict, List, Tuple

import naming
from protocol import BLOCK, Directory, File, Node, Tree
from linux import Mount
from volumes import Volume

# Permissions 1084 and 14A5 hex of docs/FORMAT.md: all may read, and go through directories.
FILE_MODE = 0o100444
DIRECTORY_MODE = 0o040555


def shown(tree: Tree, show: Callable[[str], bytes]) -> Dict[bytes, Node]:
    out: Dict[bytes, Node] = {}
    for path, node in tree.walk():
        key = b"".join(b"/" + show(name) for name in path)
        assert key not in out
        out[key] = node
    return out


def mounted(mount: Mount, tree: Tree) -> List[str]:
    """Paths in their stored order, kinds, sizes, bytes, moments to the microsecond, permissions and links."""
    if mount.refused:
        return ["the mount is refused: %s" % os.strerror(mount.refused)]
    wanted = shown(tree, naming.linux)
    out = ["%r is listed twice" % path for path in mount.twice]
    out += ["%r is not there" % path for path in wanted if path not in mount.nodes]
    out += ["%r is there" % path for path in mount.nodes if path not in wanted]
    if not out and list(wanted) != list(mount.nodes):
        out.append("names are in another order")
    for path, node in wanted.items():
        found = mount.nodes.get(path)
        if found is None:
            continue
        if found.failure or found.kind == "?":
            out.append("%r: %s" % (path, os.strerror(found.failure)))
            continue
        if isinstance(node, File):
            told: Tuple[object, ...] = ("F", found.size, FILE_MODE, 1)
            if found.data != node.data:
                out.append("%r has other bytes" % path)
            if (found.kind, len(node.data), found.mode, found.links) != told:
                out.append("%r: %r" % (path, found))
        else:
            # Linux counts a directory itself once more than the medium does.
            links = 2 + sum(1 for child in node.names.values() if isinstance(child, Directory))
            if (found.kind, found.mode, found.links) != ("D", DIRECTORY_MODE, links):
                out.append("%r: %r" % (path, found))
        moment = found.seconds * 1_000_000 + found.nanoseconds // 1000
        if moment != node.moment or found.nanoseconds % 1000:
            out.append("%r: moment %d, not %d" % (path, moment, node.moment))
    return out


def words_of(text: str) -> Dict[str, str]:
    return dict(line.split("=", 1) for line in text.splitlines() if "=" in line)


def told(words: List[str], wanted: Dict[str, str]) -> List[str]:
    """The lines NAME=VALUE of a command."""
    environment = dict(os.environ, LC_ALL="C.UTF-8", TZ="UTC")
    done = subprocess.run(words, stdout=subprocess.PIPE, stderr=subprocess.PIPE, env=environment, timeout=3600)
    if done.returncode != 0:
        return ["status %d: %s" % (done.returncode, done.stderr.decode(errors="replace"))]
    found = words_of(done.stdout.decode())
    return ["%s is %r, not %r" % (key, found.get(key), value) for key, value in wanted.items() if found.get(key) != value]


def udfinfo(volume: Volume) -> List[str]:
    script = volume.script
    files, directories = volume.tree.count()
    blocks = volume.image.stat().st_size // BLOCK
    return told(["udfinfo", "--utf8", str(volume.image)], {
        "label": script.label, "lvid": script.label, "vid": script.label, "fsid": script.label,
        "uuid": "%016x" % script.moment, "fullvsid": "%016x%s" % (script.moment, script.label),
        "blocks": str(blocks), "blocksize": "2048", "vatblock": str(volume.last),
        "numfiles": str(files), "numdirs": str(directories), "udfrev": "2.01", "udfwriterev": "2.01",
        "integrity": "closed", "accesstype": "writeonce", "impid": "*udfburn",
    })


def blkid(volume: Volume) -> List[str]:
    script = volume.script
    # Of the identifier of the volume set the first 16 characters are hexadecimal digits, and these are the UUID.
    out = told(["blkid", "-p", "-o", "export", str(volume.image)], {
        "TYPE": "udf", "USAGE": "filesystem", "VERSION": "2.01", "BLOCK_SIZE": "2048",
        "UUID": "%016x" % script.moment, "APPLICATION_ID": "udfburn",
    })
    # In a list it writes letters otherwise.
    for key in ("LABEL", "VOLUME_ID", "LOGICAL_VOLUME_ID"):
        done = subprocess.run(["blkid", "-p", "-o", "value", "-s", key, str(volume.image)], stdout=subprocess.PIPE, timeout=3600)
        if done.stdout.decode() != script.label + "\n":
            out.append("%s is %r, not %r" % (key, done.stdout, script.label))
    return out


def udfclient(volume: Volume, room: Path) -> List[str]:
    """All that it takes off the image: paths, bytes, and moments of files."""
    label = volume.script.label
    texts = ["%016x%s" % (volume.script.moment, label), label, label, label]
    where = ":".join(naming.udfclient(text).decode() for text in texts)
    folder = room / (volume.name + ".client")
    folder.mkdir()
    environment = dict(os.environ, TZ="UTC")
    done = subprocess.run(
        ["udfclient", "-b", "2048", str(volume.image)], input=('get "%s" all\nquit\n' % where).encode(), cwd=folder,
        stdout=subprocess.PIPE, stderr=subprocess.STDOUT, env=environment, timeout=3600)
    wanted = shown(volume.tree, naming.udfclient)
    found: Dict[bytes, Path] = {}
    top = folder / "all"
    for path in sorted(top.rglob("*")) if top.exists() else []:
        found[b"/" + os.fsencode(str(path.relative_to(top)))] = path
    wanted.pop(b"")
    out = []
    if done.returncode != 0 or not top.exists():
        out.append("status %d: %s" % (done.returncode, done.stdout.decode(errors="replace")[-300:]))
    out += ["%r is not there" % path for path in wanted if path not in found]
    out += ["%r is there" % path for path in found if path not in wanted]
    for name, node in wanted.items():
        copy = found.get(name)
        if copy is None:
            continue
        if copy.is_dir() != isinstance(node, Directory):
            out.append("%r is of another kind" % name)
        elif isinstance(node, File):
            if copy.read_bytes() != node.data:
                out.append("%r has other bytes" % name)
            moment = copy.stat().st_mtime_ns // 1000
            if moment != node.moment:
                out.append("%r: moment %d, not %d" % (name, moment, node.moment))
    return out
