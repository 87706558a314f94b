"""What can go wrong, each by its name. Every message says what to do where something can be done."""

from __future__ import annotations

from typing import Dict, Optional, Type

from ..protocol import AnswerCode, BadAnswer, Code, Committed, InvalidName, InvalidPath, escaped


DAMAGE = "the image holds no volume or a damaged one: see 'udfburn check IMAGE', and docs/DAMAGE.md"
"""The message about an image that cannot be opened as a volume."""


class UdfburnError(Exception):
    """Anything that this package refuses or fails at."""


# ---- how a committed request went

class Refused(UdfburnError):
    """The request is committed, and the tree stays as it was."""

    text = "is refused"

    def __init__(self, path: str, commit: int = 0):
        super().__init__(f"{escaped(path)}: {self.text}")
        self.path = path
        self.commit = commit


class NoParent(Refused):
    text = "the parent is not a directory (mkdir -p makes it)"


class NotFound(Refused):
    text = "is not there"


class Exists(Refused):
    text = "already exists"


class IsDirectory(Refused):
    text = "is a directory"


class NotDirectory(Refused):
    text = "is not a directory"


class TooLong(Refused):
    text = "has more than 1,048,576 bytes, and one answer does not hold them"


class NotEmpty(Refused):
    text = "is a directory with names (rm -r removes them too)"


class IntoItself(Refused):
    text = "a directory is not moved below itself"


class IsRoot(Refused):
    text = "the root cannot be made, replaced, moved or removed"


class TooDeep(Refused):
    text = "a path would have more than 16 names"


class DirectoryFull(Refused):
    text = "the directory has 512 names, which is the limit"


class TooMany(Refused):
    text = "the volume has 4,096 files and directories, which is the limit"


REFUSALS: Dict[Code, Type[Refused]] = {
    Code.NO_PARENT: NoParent,
    Code.NOT_FOUND: NotFound,
    Code.EXISTS: Exists,
    Code.IS_DIRECTORY: IsDirectory,
    Code.NOT_EMPTY: NotEmpty,
    Code.INTO_ITSELF: IntoItself,
    Code.ROOT: IsRoot,
    Code.TOO_DEEP: TooDeep,
    Code.DIRECTORY_FULL: DirectoryFull,
    Code.TOO_MANY: TooMany,
}

MISSES: Dict[AnswerCode, Type[Refused]] = {
    AnswerCode.NOT_FOUND: NotFound,
    AnswerCode.IS_DIRECTORY: IsDirectory,
    AnswerCode.NOT_DIRECTORY: NotDirectory,
    AnswerCode.TOO_LONG: TooLong,
}


# ---- what the volume or the drive has no room or no health for

class NotCommitted(UdfburnError):
    """The request is not committed, and its number is free again. `replies` are those to the requests before it, by number."""

    def __init__(self, *words: object):
        super().__init__(*words)
        self.replies: "Dict[int, Committed]" = {}


class Full(NotCommitted):
    """The medium has no room: nothing was written. Smaller files may still fit; otherwise use another image."""


class ClientsFull(NotCommitted):
    """The volume keeps no further client."""


class Rejected(NotCommitted):
    """The program answered that the request is malformed."""


class ReplyNotKept(UdfburnError):
    """A request is committed, the volume does not keep its reply any more, and the tree does not have what it asked for: it was refused, or
    somebody else changed that since. `replies` are those to the others that were under way, by number."""

    def __init__(self, *words: object):
        super().__init__(*words)
        self.replies: "Dict[int, Committed]" = {}


class DriveFailed(UdfburnError):
    """The drive failed again and again; what is pending is sent again by the next command or `resume`."""


class OutOfMemory(UdfburnError):
    """The program had no memory again and again; what is pending is sent again by the next command or `resume`."""


class Damaged(UdfburnError):
    """The image holds no volume or a damaged one; nothing is written to it."""


# ---- numbers and replies that are not this ledger's

class LedgerError(UdfburnError):
    """The ledger cannot be used."""


class LedgerBusy(LedgerError):
    """Another process has the ledger."""


class NumberUsedElsewhere(LedgerError):
    """The volume has requests of this client that this ledger did not send."""


class WrongVolume(LedgerError):
    """What is at this path is not the volume that acknowledged requests of this ledger there. Nothing was sent to it."""


class VolumeBehind(WrongVolume):
    """An older copy: the volume does not have requests that were acknowledged to this ledger."""


class EmptyVolume(VolumeBehind):
    """A volume without any request of this client is at the path of one that acknowledged some."""


class OtherVolume(WrongVolume):
    """Another volume: its identity, the replies that it keeps or what they made are not what the ledger has."""


class CopyWentOn(WrongVolume):
    """A copy that went on by itself: it has the volume's earlier commits, and then other commits than the ledger."""


class ForeignReply(LedgerError):
    """A reply says what the tree does not have."""


# ---- the way to the program

class ConnectionFailed(UdfburnError):
    """The program cannot be reached, or was lost and did not come back in time."""


class ProgramFailed(ConnectionFailed):
    """The program `udfburn` ended with a line of its own."""


# ---- local files

class SourceError(UdfburnError):
    """A local file cannot be stored or was not stored."""


class SourceChanged(SourceError):
    """A local file changed while it was read, or since."""


class TooLarge(SourceError):
    """A local file has more bytes than a file of a volume may have, or a manifest more than sealing reads or writes."""


class DoesNotFit(SourceError):
    """A folder as a whole is past the limits of the volume."""


class Differs(UdfburnError):
    """What is on the volume is not what it should be."""


class DiskFull(UdfburnError):
    """A local file system has no room: that of the image, of the ledger or of a local file."""


class DiscFailed(UdfburnError):
    """A disc was not burned, or is not what it should be."""


class MountFailed(UdfburnError):
    """Nothing was mounted; the message says why."""


class OutputFailed(UdfburnError):
    """The standard output is closed, or accepts no more."""


class FileDiffers(Differs):
    """A file of a volume is not what it should be. `commit` is the one that wrote it, where that is known."""

    def __init__(self, text: str, path: str, commit: Optional[int]):
        super().__init__(text)
        self.path = path
        self.commit = commit


class UsageError(UdfburnError):
    """Arguments that are not valid."""


__all__ = [
    "AnswerCode", "BadAnswer", "DAMAGE", "ClientsFull", "Code", "ConnectionFailed", "CopyWentOn", "Damaged", "Differs", "DirectoryFull",
    "DiscFailed", "DiskFull", "DoesNotFit", "DriveFailed", "EmptyVolume", "Exists", "FileDiffers", "ForeignReply", "Full", "IntoItself", "InvalidName",
    "InvalidPath", "IsDirectory", "IsRoot", "LedgerBusy", "LedgerError", "MISSES", "MountFailed", "NoParent", "NotCommitted", "NotDirectory",
    "NotEmpty", "NotFound", "NumberUsedElsewhere", "OtherVolume", "OutOfMemory", "OutputFailed", "ProgramFailed", "REFUSALS",
    "Refused", "Rejected", "ReplyNotKept", "SourceChanged", "SourceError", "TooDeep", "TooLarge", "TooMany", "UdfburnError",
    "UsageError", "VolumeBehind", "WrongVolume",
]
