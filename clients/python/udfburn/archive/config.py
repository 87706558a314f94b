"""The folder of an archive, and its `archive.toml`."""

from __future__ import annotations

import argparse
import os
import re
from contextlib import suppress
from importlib import import_module
from typing import Any, Dict, Iterable, List, NamedTuple, Optional, Set, Tuple

from ..base.beneath import open_given
from ..base.durable import make_folder
from ..base.sizes import mode_of
from ..local.saving import write_file
from ..local.sources import shown
from ..protocol import is_bytes, limits
from ..protocol.names import name_fault, spelled_size
from .errors import BadConfig, NoArchive

CONFIG_FILE = "archive.toml"
FORMAT = 1
"""The format of the folder that this program writes."""

LOCAL = "catalogue.sqlite"
"""The catalogue where none is named: a SQLite file in the folder."""

LABEL = 30 - 7
"""Letters of an archive's label: a volume's label has a hyphen and six digits more, and at most 30 letters."""

REMOTE = re.compile("[A-Za-z0-9_.+@][A-Za-z0-9_.+@ -]*")
"""The names that rclone gives remotes. What else it takes before a colon would have it do other things."""

DELETIONS = ("acknowledged", "copied")
KEYS = {"format", "id", "label", "catalogue", "capacity", "nodes", "copies", "copies_wanted", "delete", "mode", "same_device"}

LEAST_NODES, DEFAULT_NODES = 100, 1000
"""Nodes of a volume of small files: the fewest that may be asked for, and those of a new archive."""


class Config(NamedTuple):
    """What `archive.toml` says.

    `id` is drawn once a folder. `capacity` is the blocks of a new volume, and `nodes` the files and folders that one of small files takes.
    `copies` are the places where closed volumes are sent. `wanted` of them have to have a volume before a source is deleted by `delete = "copied"`. `same_device` allows folders for
    copies on the archive's own disk.
    """

    folder: str
    id: str
    label: str
    catalogue: str
    capacity: int
    copies: Tuple[str, ...]
    wanted: int
    delete: str
    same_device: bool = False
    mode: int = 0o600
    """The permissions of new images, and of what is known of them."""
    nodes: int = limits.NODES

    def path(self, *names: str) -> str:
        """A path in the archive's folder."""
        return os.path.join(self.folder, *names)

    def room_name(self, command: str) -> str:
        """How the names of folders begin that a command of this archive makes in its folder for a while."""
        return f".{command}-{self.id}-"

    def sqlite(self) -> Optional[str]:
        """The file of the catalogue, where it is one."""
        return None if is_url(self.catalogue) else self.path(self.catalogue)


def is_url(catalogue: str) -> bool:
    """Whether a catalogue is a server's."""
    return catalogue.startswith(("postgresql://", "postgres://"))


def without_password(text: str) -> str:
    """A text in which no URL has its password."""
    text = re.sub(r"(://[^/@\s:]*):[^/\s]*@", r"\1:***@", text)
    return re.sub(r"(password=)[^&\s]*", r"\1***", text)


def has_password(catalogue: str) -> bool:
    """Whether the URL of a catalogue has a password in it."""
    return without_password(catalogue) != catalogue


def check_label(label: str) -> str:
    """The label itself, where volumes can have it with their number."""
    if name_fault(label) is not None or spelled_size(label) != len(label) + 1 or len(label) > LABEL or not label.isprintable():
        raise BadConfig(f"{label!r}: is not a label: use 1 to {LABEL} characters of Latin-1, and no slash")
    return label


def volume_label(label: str, number: int) -> str:
    """The label of a volume."""
    return f"{label}-{number:06}"


def traces(config: Config) -> Set[int]:
    """The numbers of volumes of which a file is in the folder of the archive, or in a folder for copies. An empty file, or one with a
    number that no volume has, is none of a volume."""
    own = re.compile(re.escape(config.label) + r"-([0-9]{6,9})\.[a-z0-9]+")
    found: Set[int] = set()
    for folder in (config.path("closed"), config.path("open"), *filter(os.path.isabs, config.copies)):
        with suppress(OSError), os.scandir(folder) as entries:
            for entry in entries:
                match = own.fullmatch(entry.name)
                # Of a link it is the link itself: what it leads to may be away.
                if match and entry.stat(follow_symlinks=False).st_size:
                    found.add(int(match.group(1)))
    return found


def check_remote(remote: str) -> str:
    """The place itself, where it is a folder's absolute path or a remote of rclone."""
    if is_bytes(remote):
        raise BadConfig(f"{shown(remote)}: is not UTF-8, and archive.toml has nothing else: use a link whose path is")
    if os.path.isabs(remote):
        return os.path.normpath(remote)
    name, colon, place = remote.partition(":")
    if name + colon == "disc:":
        raise BadConfig(f"{remote}: is how the catalogue names discs: give the remote of rclone another name ('rclone config')")
    if not colon or not REMOTE.fullmatch(name) or not place.isprintable():
        raise BadConfig(f"{shown(remote)}: is neither the absolute path of a folder nor an rclone remote, NAME:PATH, with a plain NAME of rclone's configuration")
    return remote


def check_different(copies: Tuple[str, ...], where: str) -> None:
    """Raises where two folders for copies are one: what is there twice by name is there once."""
    known: Dict[str, str] = {}
    for copy in copies:
        place = os.path.realpath(copy) if os.path.isabs(copy) else copy
        if place in known:
            raise BadConfig(f"{where}: {copy} is the same folder as {known[place]}")
        known[place] = copy


def field(table: Dict[str, Any], key: str, kind: type, where: str) -> Any:
    """A field that has to be there."""
    value = table.get(key)
    if not isinstance(value, kind) or isinstance(value, bool):
        raise BadConfig(f"{where}: {key} is missing or has another type than {kind.__name__}")
    return value


def read(folder: str) -> Config:
    """The archive of a folder."""
    folder = os.path.realpath(folder)
    where = os.path.join(folder, CONFIG_FILE)
    # Python has it from 3.11 on.
    tomllib: Any = import_module("tomllib")
    try:
        with open(open_given(where), "rb") as file:
            table: Dict[str, Any] = tomllib.load(file)
    except FileNotFoundError as error:
        raise NoArchive(f"{shown(folder)}: is not an archive: name one with --archive or UDFBURN_ARCHIVE, or make one with 'udfburn-archive init'") from error
    except ValueError as error:
        raise BadConfig(f"{shown(where)}: {error}") from error
    return checked(folder, table, shown(where))


def config_of(arguments: argparse.Namespace) -> Config:
    """The archive that a command is about."""
    return read(arguments.archive or os.environ.get("UDFBURN_ARCHIVE") or os.curdir)


def checked(folder: str, table: Dict[str, Any], where: str) -> Config:
    """The fields, each of which is as it must be."""
    version = field(table, "format", int, where)
    if version != FORMAT:
        raise BadConfig(f"{where}: has format {version}, and this program knows {FORMAT}: use the program that wrote it")
    unknown = sorted(set(table) - KEYS)
    if unknown:
        raise BadConfig(f"{where}: has unknown fields: {', '.join(unknown)}")
    copies = field(table, "copies", list, where)
    # Folders of archives that were made before have no such field.
    nodes = field({"nodes": limits.NODES, **table}, "nodes", int, where)
    if not LEAST_NODES <= nodes <= limits.NODES:
        raise BadConfig(f"{where}: nodes must be from {LEAST_NODES} to {limits.NODES}")
    same_device = table.get("same_device", False)
    if not isinstance(same_device, bool):
        raise BadConfig(f"{where}: same_device must be true or false")
    if not all(isinstance(copy, str) for copy in copies):
        raise BadConfig(f"{where}: copies must be a list of strings")
    found = Config(
        folder, field(table, "id", str, where), check_label(field(table, "label", str, where)), field(table, "catalogue", str, where),
        field(table, "capacity", int, where), tuple(check_remote(copy) for copy in copies), field(table, "copies_wanted", int, where),
        field(table, "delete", str, where), same_device, mode_named(table.get("mode", "600"), where), nodes,
    )
    check_different(found.copies, where)
    if not limits.CAPACITY[0] <= found.capacity <= limits.CAPACITY[1]:
        raise BadConfig(f"{where}: capacity must be from {limits.CAPACITY[0]} to {limits.CAPACITY[1]} blocks")
    if found.delete not in DELETIONS:
        raise BadConfig(f"{where}: delete must be one of {', '.join(DELETIONS)}")
    if not 0 <= found.wanted <= len(copies) or (found.delete == "copied" and not found.wanted):
        raise BadConfig(f"{where}: copies_wanted must be from 1 (0 with delete = \"acknowledged\") to the number of copies")
    return found


def mode_named(value: object, where: str) -> int:
    """The permissions that `archive.toml` names, in octal."""
    mode = mode_of(value) if isinstance(value, str) else None
    if mode is None:
        raise BadConfig(f"{where}: mode must be a string from \"600\" to \"666\", such as \"640\"")
    return mode


def config_text(config: Config) -> str:
    """`archive.toml` of an archive."""
    same_device = "\n# Folders for copies may be on the disk of the archive itself.\nsame_device = true" if config.same_device else ""
    return f"""# An archive of udfburn-archive(1). `copies_wanted`, `delete`, `capacity`, `nodes` and `mode` may be changed. 'remote' changes `copies`.
format = {FORMAT}
id = {toml_string(config.id)}
label = {toml_string(config.label)}
catalogue = {toml_string(config.catalogue)}
# Blocks of 2,048 bytes of a new volume.
capacity = {config.capacity}
# Files and folders of a volume while its files have less than 64 KiB on average; of others 4,096. With fewer the archive takes less room.
nodes = {config.nodes}
# Where closed volumes are sent: absolute paths of folders, or remotes of rclone.
copies = {quoted_list(config.copies)}
# How many of them have to have a volume before a source is deleted, where delete is "copied".
copies_wanted = {config.wanted}
# When --delete-source deletes: "acknowledged" (the volume has the file) or "copied".
delete = {toml_string(config.delete)}
# The permissions of new images and of the catalogue, in octal.
mode = {toml_string(f"{config.mode:o}")}{same_device}
"""


def quoted_list(values: Iterable[str]) -> str:
    """An array of strings of TOML."""
    return "[" + ", ".join(map(toml_string, values)) + "]"


def node_count(text: str) -> int:
    """The nodes that a word asks for."""
    if not (text.isascii() and text.isdigit() and len(text) <= 6 and LEAST_NODES <= int(text) <= limits.NODES):
        raise argparse.ArgumentTypeError(f"{text!r} is not a number of files and folders from {LEAST_NODES} to {limits.NODES:,}")
    return int(text)


def with_field(text: str, key: str, value: str) -> str:
    """The text of an `archive.toml` with another value of a field. All else stays as the user has it."""
    tomllib: Any = import_module("tomllib")
    lines = text.splitlines(keepends=True)
    for first, line in enumerate(lines):
        for last in range(first + 1, len(lines) + 1) if re.match(rf"\s*{key}\s*=", line) else ():
            with suppress(ValueError):
                tomllib.loads("".join(lines[first:last]))
                return "".join([*lines[:first], f"{key} = {value}\n", *lines[last:]])
    return text.rstrip("\n") + f"\n{key} = {value}\n"


def change(config: Config, **values: str) -> Config:
    """Changes fields of an archive's `archive.toml`, whose values are those of TOML."""
    where = config.path(CONFIG_FILE)
    with open(open_given(where), encoding="utf-8") as file:
        new = file.read()
        mode = os.fstat(file.fileno()).st_mode & 0o777
    for key, value in values.items():
        new = with_field(new, key, value)
    tomllib: Any = import_module("tomllib")
    found = checked(config.folder, tomllib.loads(new), shown(where))
    write_file(where, new.encode(), mode)
    return found


def toml_string(value: str) -> str:
    """A basic string of TOML."""
    escaped = value.replace("\\", "\\\\").replace('"', '\\"')
    return '"' + "".join(letter if letter.isprintable() else f"\\U{ord(letter):08X}" for letter in escaped) + '"'


ARCHIVE_FOLDERS = ("open", "closed", "locks")


def write(config: Config) -> None:
    """Makes the folder of an archive, and `archive.toml` in it, durable and whole."""
    for name in ARCHIVE_FOLDERS:
        make_folder(config.path(name))
    write_file(config.path(CONFIG_FILE), config_text(config).encode(), 0o600 if has_password(config.catalogue) else 0o666)


def strange(folder: str) -> List[str]:
    """What a folder holds that no archive has at its beginning."""
    try:
        return sorted(set(os.listdir(folder)) - {*ARCHIVE_FOLDERS, CONFIG_FILE, CONFIG_FILE + ".new"})
    except FileNotFoundError:
        return []
