"""The protocol as the tests have it: frames, answers, and the tree and sessions that requests make.

Nothing here asks the programs: what a volume must hold after a request follows from docs/PROTOCOL.md and docs/FORMAT.md.
"""
from __future__ import annotations

import struct
from dataclasses import dataclass, field
from typing import Dict, Iterable, Iterator, List, NamedTuple, Optional, Sequence, Tuple, Union

BLOCK = 2048
FRONT = 257
"""Blocks before the partition."""
PIECE = 1_048_576
"""Bytes of each piece of a file but the last, and of an answer's data at most."""
GREATEST_FILE = 879 * PIECE
MOST_NAMES = 512
MOST_NODES = 4096
MOST_DEPTH = 16
MOST_CLIENTS = 64
KEPT_REPLIES = 4

CREATE, REPLACE, MAKE_DIRECTORY, RENAME, REMOVE, APPEND = "create", "replace", "mkdir", "rename", "remove", "append"
GET, LIST, STAT, READ = "get", "list", "stat", "read"
KIND_NUMBERS = {CREATE: 1, REPLACE: 2, MAKE_DIRECTORY: 3, RENAME: 4, REMOVE: 5, APPEND: 6, GET: 16, LIST: 17, STAT: 18, READ: 19}

# Codes of answers.
DONE, NO_PARENT, NOT_FOUND, EXISTS, IS_DIRECTORY, NOT_EMPTY, INTO_ITSELF, ROOT, TOO_DEEP, DIRECTORY_FULL, TOO_MANY = range(11)
STALE, GAP, CLIENTS_FULL, FULL, FAULT, MEMORY, MALFORMED, DAMAGED = range(32, 40)
DATA, NAMES, NODE = 64, 65, 66
NO_NODE, A_DIRECTORY, NO_DIRECTORY, TOO_LONG = 96, 97, 98, 99

Names = Tuple[str, ...]
"""The names of a path, from the root on. The root has none."""


def names_of(path: str) -> Names:
    """The names of a path: `/a/b` has two, `/` none."""
    return tuple(name for name in path.split("/") if name)


def path_of(names: Sequence[str]) -> str:
    """The path of these names."""
    return "/" + "/".join(names)


# ---- Frames ---------------------------------------------------------------------------------------------------------------------


class Request(NamedTuple):
    """A request to change the tree. `kind` is one of CREATE, REPLACE, MAKE_DIRECTORY, RENAME, REMOVE and APPEND."""

    kind: str
    client: int
    number: int
    path: str
    data: bytes = b""
    to: str = ""
    moment: int = 0
    offset: int = 0


def frame(payload: bytes) -> bytes:
    return struct.pack("<I", len(payload)) + payload


def encode_path(path: str) -> bytes:
    names = [name.encode() for name in names_of(path)]
    return bytes([len(names)]) + b"".join(struct.pack("<H", len(name)) + name for name in names)


def encode(request: Request) -> bytes:
    """The frame of a request."""
    payload = struct.pack("<BQQQ", KIND_NUMBERS[request.kind], request.client, request.number, request.moment) + encode_path(request.path)
    if request.kind == RENAME:
        payload += encode_path(request.to)
    if request.kind == APPEND:
        payload += struct.pack("<Q", request.offset)
    if request.kind in (CREATE, REPLACE, APPEND):
        payload += struct.pack("<I", len(request.data)) + request.data
    return frame(payload)


def query(kind: str, path: str) -> bytes:
    """The frame of a query: GET, LIST or STAT."""
    return frame(bytes([KIND_NUMBERS[kind]]) + encode_path(path))


def read_query(path: str, offset: int, count: int = PIECE) -> bytes:
    """The frame of a query for a piece of a file."""
    return frame(bytes([KIND_NUMBERS[READ]]) + encode_path(path) + struct.pack("<QI", offset, count))


def questions(paths: Iterable[str]) -> bytes:
    """For each path a get and a list: what can be seen of a tree."""
    return b"".join(query(GET, path) + query(LIST, path) for path in paths)


def paths_of(requests: Iterable[Request]) -> List[str]:
    """The root and every path that these requests name."""
    found = {"/"}
    for request in requests:
        found.add(request.path)
        if request.to:
            found.add(request.to)
    return sorted(found)


# ---- Answers --------------------------------------------------------------------------------------------------------------------


class Answer(NamedTuple):
    """An answer: its code, and the bytes after it."""

    code: int
    rest: bytes = b""

    @property
    def commit(self) -> int:
        """The number of the commit of an answer from 0 to 10."""
        if self.code > 10:
            raise ValueError("%d is no commit" % self.code)
        return int.from_bytes(self.rest, "little")

    @property
    def is_commit(self) -> bool:
        return self.code <= 10

    def framed(self) -> bytes:
        """The frame of the answer."""
        return frame(struct.pack("<H", self.code) + self.rest)


def committed(code: int, commit: int) -> Answer:
    return Answer(code, struct.pack("<I", commit))


def data_answer(data: bytes) -> Answer:
    return Answer(DATA, struct.pack("<I", len(data)) + data)


def names_answer(listed: Sequence[Tuple[str, bool]]) -> Answer:
    """The answer to a list of these names, of which some are directories."""
    rest = struct.pack("<H", len(listed))
    for name, is_directory in listed:
        encoded = name.encode()
        rest += struct.pack("<BH", int(is_directory), len(encoded)) + encoded
    return Answer(NAMES, rest)


def node_answer(node: Node) -> Answer:
    size = len(node.data) if isinstance(node, File) else len(node.names)
    return Answer(NODE, struct.pack("<BQQ", int(isinstance(node, Directory)), node.moment, size))


def split_answers(output: bytes) -> Tuple[List[Answer], bytes]:
    """The whole answers at the beginning of these bytes, and what is left after them."""
    answers, at = [], 0
    while at + 4 <= len(output):
        length = int.from_bytes(output[at:at + 4], "little")
        if at + 4 + length > len(output):
            break
        payload = output[at + 4:at + 4 + length]
        answers.append(Answer(int.from_bytes(payload[:2], "little"), payload[2:]))
        at += 4 + length
    return answers, output[at:]


def answers_of(output: bytes) -> List[Answer]:
    answers, rest = split_answers(output)
    if rest:
        raise AssertionError("the answers end inside a frame: %r" % rest[:40])
    return answers


# ---- The tree -------------------------------------------------------------------------------------------------------------------


@dataclass
class File:
    data: bytes
    moment: int


@dataclass
class Directory:
    """A directory: its names in stored order."""

    moment: int
    names: Dict[str, Node] = field(default_factory=dict)


Node = Union[File, Directory]


def copy_of(node: Node) -> Node:
    if isinstance(node, File):
        return File(node.data, node.moment)
    return Directory(node.moment, {name: copy_of(child) for name, child in node.names.items()})


def height(node: Node) -> int:
    """How many names the longest path below a node has."""
    if isinstance(node, File):
        return 0
    return max((1 + height(child) for child in node.names.values()), default=0)


class Tree:
    """The tree of a volume that was formatted at this moment."""

    def __init__(self, moment: int = 0) -> None:
        self.root = Directory(moment)
        self.nodes = 1

    def at(self, path: Sequence[str]) -> Optional[Node]:
        node: Node = self.root
        for name in path:
            if not isinstance(node, Directory) or name not in node.names:
                return None
            node = node.names[name]
        return node

    def parent(self, path: Sequence[str]) -> Optional[Directory]:
        node = self.at(path[:-1])
        return node if isinstance(node, Directory) else None

    def walk(self) -> Iterator[Tuple[Names, Node]]:
        """Each node with its path, a directory before its names, these in stored order."""
        waiting: List[Tuple[Names, Node]] = [((), self.root)]
        while waiting:
            path, node = waiting.pop()
            yield path, node
            if isinstance(node, Directory):
                waiting.extend((path + (name,), child) for name, child in reversed(list(node.names.items())))

    def copy(self) -> Tree:
        other = Tree()
        root = copy_of(self.root)
        assert isinstance(root, Directory)
        other.root = root
        other.nodes = self.nodes
        return other

    def count(self) -> Tuple[int, int]:
        """How many files and how many directories there are, the root included."""
        files = sum(1 for _, node in self.walk() if isinstance(node, File))
        return files, self.nodes - files

    # ---- requests

    def do(self, request: Request) -> int:
        """Carries a request out, and returns its code."""
        path = names_of(request.path)
        if request.kind == RENAME:
            return self._rename(path, names_of(request.to), request.moment)
        if not path:
            return ROOT
        parent = self.parent(path)
        if request.kind in (CREATE, MAKE_DIRECTORY):
            return self._add(request, path, parent)
        if parent is None or path[-1] not in parent.names:
            return NOT_FOUND
        old = parent.names[path[-1]]
        if request.kind == REPLACE:
            if isinstance(old, Directory):
                return IS_DIRECTORY
            old.data, old.moment = request.data, request.moment
            return DONE
        if request.kind == APPEND:
            return self._append(request, old)
        if isinstance(old, Directory) and old.names:
            return NOT_EMPTY
        del parent.names[path[-1]]
        parent.moment = request.moment
        self.nodes -= 1
        return DONE

    def _add(self, request: Request, path: Names, parent: Optional[Directory]) -> int:
        if len(path) > MOST_DEPTH:
            return TOO_DEEP
        if parent is None:
            return NO_PARENT
        if path[-1] in parent.names:
            return EXISTS
        if len(parent.names) >= MOST_NAMES:
            return DIRECTORY_FULL
        if self.nodes >= MOST_NODES:
            return TOO_MANY
        parent.names[path[-1]] = File(request.data, request.moment) if request.kind == CREATE else Directory(request.moment)
        parent.moment = request.moment
        self.nodes += 1
        return DONE

    def _append(self, request: Request, old: Node) -> int:
        if isinstance(old, Directory):
            return IS_DIRECTORY
        if len(old.data) != request.offset or request.offset % PIECE:
            return EXISTS
        if request.offset >= GREATEST_FILE:
            return TOO_MANY
        old.data, old.moment = old.data + request.data, request.moment
        return DONE

    def _rename(self, old: Names, new: Names, moment: int) -> int:
        if not old or not new:
            return ROOT
        node = self.at(old)
        if node is None:
            return NOT_FOUND
        if len(new) > len(old) and new[:len(old)] == old:
            return INTO_ITSELF
        source, target = self.parent(old), self.parent(new)
        if target is None:
            return NO_PARENT
        if new[-1] in target.names:
            return EXISTS
        if len(new) + height(node) > MOST_DEPTH:
            return TOO_DEEP
        if len(target.names) >= MOST_NAMES and source is not target:
            return DIRECTORY_FULL
        assert source is not None
        target.names[new[-1]] = source.names.pop(old[-1])
        source.moment = target.moment = moment
        return DONE

    # ---- queries

    def get(self, path: str) -> Answer:
        node = self.at(names_of(path))
        if node is None:
            return Answer(NO_NODE)
        if isinstance(node, Directory):
            return Answer(A_DIRECTORY)
        return data_answer(node.data) if len(node.data) <= PIECE else Answer(TOO_LONG)

    def read(self, path: str, offset: int, count: int = PIECE) -> Answer:
        node = self.at(names_of(path))
        if node is None:
            return Answer(NO_NODE)
        return data_answer(node.data[offset:offset + count]) if isinstance(node, File) else Answer(A_DIRECTORY)

    def list(self, path: str) -> Answer:
        node = self.at(names_of(path))
        if node is None:
            return Answer(NO_NODE)
        if isinstance(node, File):
            return Answer(NO_DIRECTORY)
        return names_answer([(name, isinstance(child, Directory)) for name, child in node.names.items()])

    def stat(self, path: str) -> Answer:
        node = self.at(names_of(path))
        return Answer(NO_NODE) if node is None else node_answer(node)


# ---- Sessions -------------------------------------------------------------------------------------------------------------------


class Model:
    """A volume in memory: the tree, and each client's latest number and last four replies."""

    def __init__(self, moment: int = 0) -> None:
        self.tree = Tree(moment)
        self.latest: Dict[int, int] = {}
        self.replies: Dict[int, List[Answer]] = {}
        self.commits = 0

    def copy(self) -> Model:
        other = Model()
        other.tree = self.tree.copy()
        other.latest = dict(self.latest)
        other.replies = {client: list(kept) for client, kept in self.replies.items()}
        other.commits = self.commits
        return other

    def answer(self, request: Request) -> Answer:
        """The answer to a request, which is carried out if it is new."""
        latest = self.latest.get(request.client, 0)
        kept = self.replies.get(request.client, [])
        if request.number <= latest:
            back = latest - request.number
            return kept[back] if back < len(kept) else Answer(STALE, struct.pack("<Q", latest))
        if request.number != latest + 1:
            return Answer(GAP, struct.pack("<Q", latest))
        if request.client not in self.latest and len(self.latest) == MOST_CLIENTS:
            return Answer(CLIENTS_FULL)
        code = self.tree.do(request)
        self.commits += 1
        reply = committed(code, self.commits)
        self.latest[request.client] = request.number
        self.replies[request.client] = ([reply] + kept)[:KEPT_REPLIES]
        return reply

    def get(self, path: str) -> Answer:
        return self.tree.get(path)

    def names(self, path: str) -> Answer:
        return self.tree.list(path)

    def told(self, paths: Iterable[str]) -> List[Answer]:
        """The answers to `questions` of these paths."""
        return [answer for path in paths for answer in (self.get(path), self.names(path))]


class Script:
    """A list of requests of some clients, with the tree and the answers that follow from it."""

    def __init__(self, label: str, moment: int = 0, capacity: int = 450_000, step: int = 1_000_000) -> None:
        self.label = label
        self.moment = moment
        self.capacity = capacity
        self.clock = moment
        self.step = step
        self.client = 7
        self.model = Model(moment)
        self.frames: List[bytes] = []
        self.wanted: List[bytes] = []
        self.kept: Dict[int, Tree] = {}

    @property
    def tree(self) -> Tree:
        return self.model.tree

    @property
    def commits(self) -> int:
        return self.model.commits

    def send(self, kind: str, path: Names, data: bytes = b"", to: Names = (), moment: Optional[int] = None) -> int:
        if moment is None:
            # A step that changes every part of a moment, from the microsecond to the day.
            self.clock += self.step
            moment = self.clock
        number = self.model.latest.get(self.client, 0) + 1
        request = Request(kind, self.client, number, path_of(path), data, path_of(to), moment)
        answer = self.model.answer(request)
        self.frames.append(encode(request))
        self.wanted.append(answer.framed())
        return answer.code

    def create(self, path: Names, data: bytes = b"", moment: Optional[int] = None) -> int:
        return self.send(CREATE, path, data, moment=moment)

    def replace(self, path: Names, data: bytes, moment: Optional[int] = None) -> int:
        return self.send(REPLACE, path, data, moment=moment)

    def make(self, path: Names, moment: Optional[int] = None) -> int:
        return self.send(MAKE_DIRECTORY, path, moment=moment)

    def move(self, path: Names, to: Names, moment: Optional[int] = None) -> int:
        return self.send(RENAME, path, to=to, moment=moment)

    def remove(self, path: Names, moment: Optional[int] = None) -> int:
        return self.send(REMOVE, path, moment=moment)

    def keep(self) -> None:
        """Keeps the tree after the last commit, to be compared with that commit later."""
        self.kept[self.commits] = self.tree.copy()
