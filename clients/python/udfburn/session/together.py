"""Which requests may be under way together: those of which the tree shows afterwards what became of each.

A request is shown by its own paths, so no other one under way may change these, or take away a directory above them. There are two
exceptions, in which the later request shows what became of the earlier one too: a piece right after the piece before it, by the size of
the file; and a file that gets the path of one which is removed for it.

A file gets its name by a rename. That is shown only where the ledger has the digest of the file: else what is at the new path may have
been there before, and the rename was refused since there was nothing at the old one. No piece of the file is under way then, so the pieces
are known when it is asked whether the file is at its new path. A piece too is shown only where the ledger has the digest of the file up to
its end.
"""

from __future__ import annotations

from ..ledger.records import Facts
from ..protocol import AnyRequest, Append, Create, MakeDir, Path, Remove, Rename, Replace
from ..wire.operations import paths_of, size_after

SHOWN_BY_TREE = (Create, Replace, MakeDir, Remove)


def is_shown(request: AnyRequest, facts: Facts) -> bool:
    """Whether the tree shows what became of a request, if no other one under way has to do with its paths."""
    if isinstance(request, Append):
        return facts.sha256 is not None
    return isinstance(request, SHOWN_BY_TREE) or facts.whole is not None


def takes_away(request: AnyRequest) -> bool:
    """Whether what is below the request's path may be gone afterwards."""
    return isinstance(request, (Remove, Rename))


def may_follow(request: AnyRequest, earlier: AnyRequest) -> bool:
    """Whether a request may be under way with an earlier one that has a path of it."""
    if isinstance(request, Append):
        return isinstance(earlier, (Create, Replace, Append)) and size_after(earlier) == request.offset
    return isinstance(request, Rename) and isinstance(earlier, Remove) and earlier.path == request.to


def disturbs(request: AnyRequest, other: AnyRequest) -> bool:
    """Whether a request may take away what is above the paths of another one. That of two removals is no matter: each path is gone."""
    if not takes_away(request) or isinstance(request, Remove) and isinstance(other, Remove):
        return False
    return any([is_above(path, below) for path in paths_of(request) for below in paths_of(other)])


def is_above(path: Path, below: Path) -> bool:
    """Whether a path is that of a directory above another path."""
    return len(path) < len(below) and below[: len(path)] == path


__all__ = ["disturbs", "is_shown", "may_follow", "takes_away"]
