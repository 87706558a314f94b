"""An iSCSI target (RFC 7143), as far as an initiator on the same machine needs it: one connection a session, no digests, no security.

Each device is at LUN 1 of a target of its own.
"""

from __future__ import annotations

import socket
import socketserver
import struct
from threading import Lock, Thread
from typing import Dict, List, NamedTuple, Optional, Protocol, Tuple

LUN = 1
LARGEST = 262_144
"""Bytes of one PDU's data, at most, in each direction."""

CHECK_CONDITION = 2

# Opcodes of the initiator and of the target (RFC 7143 11.2.1.2).
NOP_OUT, COMMAND, TASK, LOGIN, TEXT, DATA_OUT, LOGOUT = 0x00, 0x01, 0x02, 0x03, 0x04, 0x05, 0x06
NOP_IN, RESPONSE, TASK_DONE, LOGIN_DONE, TEXT_DONE, DATA_IN, LOGGED_OUT, READY = 0x20, 0x21, 0x22, 0x23, 0x24, 0x25, 0x26, 0x31

Answer = Tuple[int, bytes, bytes]
"""A SCSI status, the data for the initiator, and the sense data."""


class Device(Protocol):
    """What is at a LUN."""

    def command(self, cdb: bytes, data: bytes) -> Answer:
        """Does a command with the data that the initiator sends."""


class Pdu(NamedTuple):
    """A header of 48 bytes, and its data."""

    head: bytes
    data: bytes

    def opcode(self) -> int:
        return self.head[0] & 0x3F

    def tag(self) -> bytes:
        """The initiator's tag of the task."""
        return self.head[16:20]


class Left(Exception):
    """The initiator has gone."""


ANSWERS = {
    "HeaderDigest": "None", "DataDigest": "None", "InitialR2T": "Yes", "ImmediateData": "No", "MaxOutstandingR2T": "1", "MaxConnections": "1",
    "ErrorRecoveryLevel": "0", "DataPDUInOrder": "Yes", "DataSequenceInOrder": "Yes", "DefaultTime2Wait": "2", "DefaultTime2Retain": "0",
    "IFMarker": "No", "OFMarker": "No", "FirstBurstLength": str(LARGEST), "MaxBurstLength": "16776192", "AuthMethod": "None",
}
"""What is said to what an initiator proposes."""


class Session(socketserver.BaseRequestHandler):
    """A connection."""

    server: "Target"

    def handle(self) -> None:
        self.connection: socket.socket = self.request
        self.connection.setsockopt(socket.IPPROTO_TCP, socket.TCP_NODELAY, 1)
        self.device: Optional[Device] = None
        self.serial = self.expected = 0
        self.largest = 8192
        self.waiting: List[Pdu] = []
        try:
            while True:
                self.answer(self.waiting.pop(0) if self.waiting else self.receive())
        except (Left, ConnectionError):
            return

    # ---- PDUs

    def exactly(self, count: int) -> bytes:
        """So many bytes."""
        found = bytearray()
        while len(found) < count:
            piece = self.connection.recv(count - len(found))
            if not piece:
                raise Left
            found += piece
        return bytes(found)

    def receive(self) -> Pdu:
        head = self.exactly(48)
        self.exactly(head[4] * 4)
        length = int.from_bytes(head[5:8], "big")
        return Pdu(head, self.exactly(length + -length % 4)[:length])

    def send(self, opcode: int, flags: int, more: bytes, tag: bytes, rest: bytes, data: bytes = b"", counts: bool = True) -> None:
        """A PDU: bytes 2 and 3, the task's tag, and what follows the numbers of commands at 36."""
        numbers = struct.pack(">III", self.serial, self.expected, self.expected + 64)
        target, rest = rest[:4], rest[4:]
        head = bytes([opcode, flags]) + more + len(data).to_bytes(4, "big") + bytes(8) + tag + target + numbers + rest
        self.serial = (self.serial + 1) % (1 << 32) if counts else self.serial
        self.connection.sendall(head.ljust(48, b"\0") + data + bytes(-len(data) % 4))

    def answer(self, pdu: Pdu) -> None:
        """Answers a PDU."""
        opcode = pdu.opcode()
        if not pdu.head[0] & 0x40 and opcode != DATA_OUT:
            self.expected = (int.from_bytes(pdu.head[24:28], "big") + 1) % (1 << 32)
        elif opcode == LOGIN:
            self.expected = int.from_bytes(pdu.head[24:28], "big")
        if opcode == LOGIN:
            self.login(pdu)
        elif opcode == COMMAND:
            self.scsi(pdu)
        elif opcode == NOP_OUT:
            if pdu.tag() != b"\xff" * 4:
                self.send(NOP_IN, 0x80, bytes(2), pdu.tag(), b"\xff" * 4, pdu.data)
        elif opcode == TASK:
            self.send(TASK_DONE, 0x80, bytes(2), pdu.tag(), bytes(4))
        elif opcode == TEXT:
            self.send(TEXT_DONE, 0x80, bytes(2), pdu.tag(), b"\xff" * 4, self.server.listed())
        elif opcode == LOGOUT:
            self.send(LOGGED_OUT, 0x80, bytes(2), pdu.tag(), bytes(4))
            raise Left

    def login(self, pdu: Pdu) -> None:
        """Takes an initiator in, and answers what it proposes (RFC 7143 6, 13)."""
        proposed = dict(text.split("=", 1) for text in pdu.data.decode().split("\0") if "=" in text)
        if "TargetName" in proposed:
            self.device = self.server.devices.get(proposed["TargetName"])
        said = {key: ANSWERS[key] for key in proposed if key in ANSWERS}
        self.largest = min(int(proposed.get("MaxRecvDataSegmentLength", self.largest)), LARGEST)
        if "MaxRecvDataSegmentLength" in proposed:
            said["MaxRecvDataSegmentLength"] = str(LARGEST)
        if "TargetName" in proposed:
            said["TargetPortalGroupTag"] = "1"
        flags = pdu.head[1]
        unknown = "TargetName" in proposed and self.device is None
        data = b"" if unknown else b"".join(f"{key}={value}\0".encode() for key, value in said.items())
        numbers = struct.pack(">III", self.serial, self.expected, self.expected + 64)
        status = b"\x02\x03" if unknown else bytes(2)
        head = bytes([LOGIN_DONE, flags & 0x8F, 0, 0]) + len(data).to_bytes(4, "big") + pdu.head[8:14]
        # The session's handle is the target's to give.
        head += (b"\0\1" if flags & 0x80 else bytes(2)) + pdu.tag() + bytes(4) + numbers + status
        self.serial += 1
        self.connection.sendall(head.ljust(48, b"\0") + data + bytes(-len(data) % 4))
        if unknown:
            raise Left

    # ---- commands

    def scsi(self, pdu: Pdu) -> None:
        """Does a SCSI command: takes its data, and sends what it gives."""
        cdb, room = pdu.head[32:48], int.from_bytes(pdu.head[20:24], "big")
        lun = int.from_bytes(pdu.head[8:10], "big") & 0x3FFF
        if self.device is None or lun != LUN:
            # INQUIRY says that nothing is there; else the logical unit is not supported.
            none = bytes([0x7F]) + bytes(35)
            self.end(pdu, (0, none, b"") if cdb[0] == 0x12 else (CHECK_CONDITION, b"", b"\x70\0\5\0\0\0\0\x0a\0\0\0\0\x25\0\0\0\0\0"), room)
            return
        writes = bool(pdu.head[1] & 0x20)
        data = self.take(pdu, room) if writes else b""
        with self.server.lock:
            answer = self.device.command(cdb, data)
        self.end(pdu, answer, room, len(data) if writes else None)

    def take(self, pdu: Pdu, wanted: int) -> bytes:
        """The data of a command, which the target asks for."""
        data = bytearray(pdu.data)
        turn = 0
        while len(data) < wanted:
            count = min(wanted - len(data), LARGEST)
            numbers = struct.pack(">III", turn, len(data), count)
            self.send(READY, 0x80, bytes(2), pdu.tag(), struct.pack(">I", turn + 1) + numbers, counts=False)
            end = len(data) + count
            while len(data) < end:
                piece = self.receive()
                # The next commands may come between the data of this one.
                if piece.opcode() == DATA_OUT:
                    data += piece.data
                else:
                    self.waiting.append(piece)
            turn += 1
        return bytes(data)

    def end(self, pdu: Pdu, answer: Answer, room: int, taken: Optional[int] = None) -> None:
        """Sends the data of a command, and its status."""
        status, data, sense = answer
        data = data[:room] if taken is None else b""
        for number, at in enumerate(range(0, len(data), self.largest)):
            piece = data[at : at + self.largest]
            last = at + len(piece) == len(data)
            # DataSN, the offset, and no residue: the status says that.
            self.send(DATA_IN, 0x80 if last else 0, bytes(2), pdu.tag(), b"\xff" * 4 + struct.pack(">III", number, at, 0), piece, counts=False)
        moved = len(data) if taken is None else taken
        flags = 0x80 | (0x02 if moved < room else 0)
        text = len(sense).to_bytes(2, "big") + sense if sense else b""
        count = -(-len(data) // self.largest)
        self.send(RESPONSE, flags, bytes([0, status]), pdu.tag(), bytes(4) + struct.pack(">III", count, 0, room - moved), text)


class Target(socketserver.ThreadingTCPServer):
    """The server of some devices, by the names of their targets."""

    daemon_threads = True
    allow_reuse_address = True

    def __init__(self, devices: Dict[str, Device]):
        super().__init__(("127.0.0.1", 0), Session)
        self.devices = devices
        self.lock = Lock()

    def port(self) -> int:
        return int(self.server_address[1])

    def url(self, name: str) -> str:
        """What an initiator connects to."""
        return f"iscsi://127.0.0.1:{self.port()}/{name}/{LUN}"

    def listed(self) -> bytes:
        """All targets, for an initiator that asks (SendTargets)."""
        lines: List[str] = []
        for name in self.devices:
            lines += [f"TargetName={name}", f"TargetAddress=127.0.0.1:{self.port()},1"]
        return b"".join(line.encode() + b"\0" for line in lines)

    def begin(self) -> None:
        """Serves in a thread of its own."""
        Thread(target=self.serve_forever, daemon=True).start()
