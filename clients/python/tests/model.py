"""A volume as a plain program: a dictionary of paths, and what requests do to it. It knows nothing of the client."""

from __future__ import annotations

from typing import Dict, List, Optional, Tuple

from udfburn.protocol import (
    CLIENTS_FULL, IS_DIRECTORY, NOT_DIRECTORY, NOT_FOUND, TOO_LONG, Answer, Append, Code, Committed, Create, Data, Fault, Gap, Get, List as ListQuery,
    MakeDir, Malformed, Message, Name, Names, Node, NodeKind, Path, Read, Remove, Rename, Replace, Request, Stale, decode_message, limits,
)
from udfburn.protocol.units import Commit, Moment


class File:
    def __init__(self, data: bytes, moment: int):
        self.data, self.moment = data, moment


class Directory:
    def __init__(self, moment: int):
        self.names: List[str] = []
        self.moment = moment


class Volume:
    """The tree, and each client's latest number and last four replies."""

    def __init__(self) -> None:
        self.nodes: Dict[Path, object] = {(): Directory(0)}
        self.clients: Dict[int, Tuple[int, List[Committed]]] = {}
        self.commits = 0

    def answer_payload(self, payload: bytes) -> Answer:
        try:
            return self.answer(decode_message(payload))
        except Fault as fault:
            return Malformed(fault.cause)

    def answer(self, message: Message) -> Answer:
        if not isinstance(message, Request):
            return self.query(message)
        latest, kept = self.clients.get(message.client, (0, []))
        if latest - len(kept) < message.number <= latest:
            return kept[latest - message.number]
        if message.number <= latest:
            return Stale(latest)
        if message.number != latest + 1:
            return Gap(latest)
        if message.client not in self.clients and len(self.clients) == 64:
            return CLIENTS_FULL
        self.commits += 1
        reply = Committed(self.operate(message), Commit(self.commits))
        self.clients[message.client] = (message.number, [reply] + kept[:3])
        return reply

    # ---- requests

    def operate(self, message: Request) -> Code:
        if isinstance(message, (Create, MakeDir)):
            code = self.new(message.path)
            if code is Code.DONE:
                self.enter(message.path, File(message.data, message.moment) if isinstance(message, Create) else Directory(message.moment), message.moment)
            return code
        if isinstance(message, Append):
            return self.append(message)
        if isinstance(message, Replace):
            code = self.found(message.path)
            if code is Code.DONE and isinstance(self.nodes[message.path], Directory):
                return Code.IS_DIRECTORY
            if code is Code.DONE:
                self.nodes[message.path] = File(message.data, message.moment)
            return code
        if isinstance(message, Remove):
            return self.remove(message)
        assert isinstance(message, Rename)
        return self.rename(message)

    def append(self, message: Append) -> Code:
        code = self.found(message.path)
        if code is not Code.DONE:
            return code
        node = self.nodes[message.path]
        if not isinstance(node, File):
            return Code.IS_DIRECTORY
        if message.offset != len(node.data) or message.offset % limits.FILE:
            return Code.EXISTS
        if message.offset >= limits.GREATEST_FILE:
            return Code.TOO_MANY
        self.nodes[message.path] = File(node.data + message.data, message.moment)
        return Code.DONE

    def found(self, path: Path) -> Code:
        if not path:
            return Code.ROOT
        return Code.DONE if path in self.nodes else Code.NOT_FOUND

    def new(self, path: Path) -> Code:
        if not path:
            return Code.ROOT
        if len(path) > 16:
            return Code.TOO_DEEP
        parent = self.nodes.get(path[:-1])
        if not isinstance(parent, Directory):
            return Code.NO_PARENT
        if path in self.nodes:
            return Code.EXISTS
        if len(parent.names) == 512:
            return Code.DIRECTORY_FULL
        return Code.TOO_MANY if len(self.nodes) == 4096 else Code.DONE

    def enter(self, path: Path, node: object, moment: int) -> None:
        parent = self.nodes[path[:-1]]
        assert isinstance(parent, Directory)
        self.nodes[path] = node
        parent.names.append(path[-1])
        parent.moment = moment

    def leave(self, path: Path, moment: int) -> object:
        parent = self.nodes[path[:-1]]
        assert isinstance(parent, Directory)
        parent.names.remove(path[-1])
        parent.moment = moment
        return self.nodes.pop(path)

    def remove(self, message: Remove) -> Code:
        code = self.found(message.path)
        if code is not Code.DONE:
            return code
        node = self.nodes[message.path]
        if isinstance(node, Directory) and node.names:
            return Code.NOT_EMPTY
        self.leave(message.path, message.moment)
        return Code.DONE

    def rename(self, message: Rename) -> Code:
        old, new = message.path, message.to
        if not old or not new:
            return Code.ROOT
        if old not in self.nodes:
            return Code.NOT_FOUND
        if len(new) > len(old) and new[: len(old)] == old:
            return Code.INTO_ITSELF
        parent = self.nodes.get(new[:-1])
        if not isinstance(parent, Directory):
            return Code.NO_PARENT
        if new in self.nodes:
            return Code.EXISTS
        moved = {path: node for path, node in self.nodes.items() if path[: len(old)] == old}
        if max(len(path) for path in moved) - len(old) + len(new) > 16:
            return Code.TOO_DEEP
        if len(parent.names) == 512 and old[:-1] != new[:-1]:
            return Code.DIRECTORY_FULL
        node = self.leave(old, message.moment)
        self.enter(new, node, message.moment)
        for path, below in moved.items():
            if path != old:
                self.nodes[new + path[len(old) :]] = self.nodes.pop(path)
        return Code.DONE

    # ---- queries

    def query(self, message: object) -> Answer:
        node = self.nodes.get(message.path)  # type: ignore[attr-defined]
        if node is None:
            return NOT_FOUND
        if isinstance(message, Get):
            if isinstance(node, File) and len(node.data) > limits.FILE:
                return TOO_LONG
            return Data(node.data) if isinstance(node, File) else IS_DIRECTORY
        if isinstance(message, Read):
            return Data(node.data[message.offset : message.offset + message.count]) if isinstance(node, File) else IS_DIRECTORY
        if isinstance(message, ListQuery):
            if not isinstance(node, Directory):
                return NOT_DIRECTORY
            return Names(tuple(Name(self.kind(message.path + (name,)), name) for name in node.names))
        if isinstance(node, File):
            return Node(NodeKind.FILE, Moment(node.moment), len(node.data))
        assert isinstance(node, Directory)
        return Node(NodeKind.DIRECTORY, Moment(node.moment), len(node.names))

    def kind(self, path: Path) -> NodeKind:
        return NodeKind.DIRECTORY if isinstance(self.nodes[path], Directory) else NodeKind.FILE

    def files(self) -> Dict[Path, bytes]:
        return {path: node.data for path, node in self.nodes.items() if isinstance(node, File)}

    def list(self) -> Optional[Dict[Path, NodeKind]]:
        return {path: self.kind(path) for path in self.nodes}
