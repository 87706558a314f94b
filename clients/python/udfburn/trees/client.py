"""The client: operations on a volume's tree, each once and for certain."""

from __future__ import annotations

from contextlib import closing, contextmanager
from typing import TYPE_CHECKING, Dict, Generator, Iterable, Iterator, List, Literal, Optional, Tuple, Type, Union

from ..base.errors import Exists, IsDirectory, NotDirectory, NotFound, TooLong, UdfburnError, UsageError
from ..protocol import (
    Answer, AnyRequest, Code, Create, Data, Get, List as ListQuery, MakeDir, Name, Names, Node, NodeKind, Path, PathLike, Query,
    Read, Remove, Rename, Replace, Stat, limits, path_of, show, shown,
)
from ..protocol.units import Commit, Moment
from ..wire.connection import LONGEST_WAIT
from ..wire.endpoint import Endpoint
from ..wire.operations import Operation, Outcome, now
from ..wire.pieces import and_node, bytes_as_seen, queries_of
from ..wire.refusals import Answered, commit_of, expected, met
from ..wire.retrying import RetryingConnection

if TYPE_CHECKING:
    from ..ledger.digests import Files, KnownWhole, SentFile
    from ..ledger.ledger import Ledger
    from ..session.session import Session
    from .compare import Comparison
    from .jobs import ImportSummary
    from .walk import StepTold


class Client:
    """A volume at a daemon's socket (`unix:PATH`), or in an image: with the program `udfburn apply` (`image:PATH`), or in this process
    with the C library (`library:PATH`), or on the disc in a recorder (`device:PATH`).

    `ledger` is the file that keeps numbers, frames and replies. It is opened with the first request, and made if it is missing. It
    may also be an open `Ledger`, which is closed with the client. `client` is the number of a new ledger at its volumes, above 0; by
    default it is chosen at random. A volume keeps 64 clients for its life, so use one ledger for each machine.

    `patience` is how long, in seconds from 0 on, to try again what is busy or gone without progress. `timeout` is the longest wait for
    an answer, in seconds above 0 and at most a million. Other values raise `UsageError`.

    Each call connects and disconnects, since a daemon serves one connection after another; `held` keeps the connection for several
    calls. With the library the client holds the image from the first call until `close`.

    A path is a text such as `/a/b`, or a sequence of names. Moments are microseconds from 1970-01-01 UTC, by default now. Requests
    return the number of their commit. Each refusal is an exception of its name in `udfburn.errors`, such as `Exists` or `NotFound`.
    """

    def __init__(
        self,
        connect: str,
        client: Optional[int] = None,
        ledger: "Union[str, Ledger, None]" = None,
        program: Optional[str] = None,
        patience: float = 10.0,
        timeout: float = 120.0,
        shared: bool = False,
    ):
        if not 0 <= patience < float("inf"):
            raise UsageError(f"{patience!r} is not a number of seconds: give a number from 0 on")
        if not 0 < timeout <= LONGEST_WAIT:
            raise UsageError(f"{timeout!r} is not a valid timeout: give a number of seconds above 0, at most {LONGEST_WAIT:,.0f}")
        self.endpoint = Endpoint(connect, program)
        self.line = RetryingConnection(self.endpoint, patience, timeout)
        self._wanted = client
        self._ledger = ledger
        self._patience = patience
        self._shared = shared
        self._session: Optional[Session] = None
        self._held = 0

    def __enter__(self) -> "Client":
        return self

    def __exit__(self, *_: object) -> None:
        self.close()

    def close(self) -> None:
        """Disconnects, and releases the ledger and the image."""
        self.line.drop()
        self.endpoint.close()
        if self._session is not None:
            self._session.ledger.close()
            self._session = None

    @contextmanager
    def held(self) -> Iterator["Client"]:
        """Keeps the connection between calls. The daemon's other clients wait until it ends."""
        self._held += 1
        try:
            yield self
        finally:
            self._held -= 1
            if not self._held and self.endpoint.library is None:
                self.line.drop()

    def session(self) -> Session:
        """The requests of this client, with its ledger. Who only reads does not load what they take."""
        if self._session is None:
            from ..ledger.ledger import Ledger, default_path
            from ..session.session import Session

            ledger = self._ledger
            if not isinstance(ledger, Ledger):
                ledger = Ledger(ledger or default_path(), self._wanted, self._patience)
            try:
                self._session = Session(self.line, ledger, self._shared)
            except BaseException:
                # Where a disc cannot be had there is no session that would close it.
                if ledger is not self._ledger:
                    ledger.close()
                raise
        return self._session

    # ---- requests

    def run(self, operations: Iterable[Operation]) -> Iterator[Outcome]:
        """Does operations in order, and yields the outcome of each: once its reply is in the ledger and the tree agrees with it. A
        refusal is an outcome too. Up to 60 operations are under way at once, and 30 more are read ahead; up to four and two, where the tree
        does not show what became of each (`udfburn.session.together`)."""
        with self.held():
            yield from self.session().run(operations)

    def do(self, kind: Type[AnyRequest], path: PathLike, moment: Optional[Moment] = None, data: bytes = b"", to: PathLike = ()) -> Commit:
        """Does one operation, and returns the number of its commit. Raises its refusal."""
        operation = Operation(kind, path_of(path), now() if moment is None else moment, data, path_of(to))
        outcomes = list(self.run([operation]))
        return commit_of(outcomes[0])

    def create(self, path: PathLike, data: bytes, moment: Optional[Moment] = None) -> Commit:
        """Creates a file of at most 1,048,576 bytes. Raises `Exists` if something is at its path."""
        return self.do(Create, path, moment, data)

    def replace(self, path: PathLike, data: bytes, moment: Optional[Moment] = None) -> Commit:
        """Replaces the bytes of a file by at most 1,048,576 others. Raises `NotFound` if there is no file."""
        return self.do(Replace, path, moment, data)

    def mkdir(self, path: PathLike, moment: Optional[Moment] = None) -> Commit:
        """Makes a directory. Raises `Exists` if something is at its path."""
        return self.do(MakeDir, path, moment)

    def rename(self, path: PathLike, to: PathLike, moment: Optional[Moment] = None) -> Commit:
        """Moves a file or a directory to another path. Raises `Exists` if something is there: nothing is replaced."""
        return self.do(Rename, path, moment, to=to)

    def remove(self, path: PathLike, moment: Optional[Moment] = None) -> Commit:
        """Removes a file or an empty directory. Raises `NotEmpty` for any other directory."""
        return self.do(Remove, path, moment)

    def put(self, path: PathLike, data: bytes, moment: Optional[Moment] = None) -> Commit:
        """Stores a file of at most 921,698,304 bytes: creates it, or replaces the one that is there. Above a mebibyte it takes a request
        for each mebibyte, and is there whole or not at all. Raises `IsDirectory` if a directory is at its path."""
        if len(data) > limits.FILE:
            from .growing import put_bytes

            return put_bytes(self, path_of(path), data, moment)
        with self.held():
            while True:
                node = self.find(path)
                if node is not None and node.kind is NodeKind.DIRECTORY:
                    raise IsDirectory(show(path_of(path)))
                try:
                    return self.replace(path, data, moment) if node else self.create(path, data, moment)
                except (Exists, NotFound):
                    # Another client was there between the look and the request.
                    continue

    def makedirs(self, path: PathLike, moment: Optional[Moment] = None) -> List[Path]:
        """Makes a directory and the missing ones above it. Returns the paths of those that it made. Raises `NotDirectory` at a file."""
        names = path_of(path)
        made = []
        with self.held():
            for depth in range(1, len(names) + 1):
                node = self.find(names[:depth])
                if node is None:
                    try:
                        self.mkdir(names[:depth], moment)
                        made.append(names[:depth])
                    except Exists:
                        pass
                elif node.kind is NodeKind.FILE:
                    raise NotDirectory(show(names[:depth]))
        return made

    def resume(self) -> List[Tuple[int, str, Code, Commit]]:
        """Finishes what an earlier process began. Returns number, path, code and commit of each request that was pending. If the source
        of one changed or is gone, and the volume did not have it already, its code is ROOT, and `take_not_stored` names it."""
        with self.held():
            session = self.session()
            self.line.get()
            paths = {waiting.number: waiting.path for waiting in session.ledger.pending(session.volume())}
            return [(number, paths[number], reply.code, reply.commit) for number, reply in session.recover().items()]

    def take_not_stored(self) -> Dict[int, str]:
        """The paths of pending requests that were not sent again, since their sources changed or are gone, by their numbers. Each is
        returned once."""
        if self._session is None:
            return {}
        recovery = self._session.recovery
        taken, recovery.not_stored = recovery.not_stored, {}
        return taken

    def forget(self) -> List[str]:
        """Drops pending requests, and asks the volume for the latest number of this client. Returns the paths of those dropped."""
        with self.held():
            return self.session().forget()

    # ---- queries

    def ask(self, query: Query) -> Answer:
        """The answer to a query. Raises its refusal."""
        with self.held():
            return met(query, self.line.ask(query))

    def ask_all(self, queries: Iterable[Query]) -> Generator[Answer, None, None]:
        """The answers to queries, in order, as they come; refusals are among them. Close the generator if you do not read it to its end:
        an interrupt that comes while Python clears it away is lost."""
        with self.held():
            yield from self.line.ask_all(queries)

    def _asked(self, kind: Type[Answered], query: Query) -> Answered:
        with self.held():
            return expected(kind, query, self.line.ask(query))

    def get(self, path: PathLike) -> bytes:
        """The bytes of a file. Raises `NotFound` or `IsDirectory`."""
        try:
            return self._asked(Data, Get(path_of(path))).data
        except TooLong:
            return b"".join(self.pieces(path))

    def read(self, path: PathLike, offset: int, count: int) -> bytes:
        """`count` bytes of a file, at most 1,048,576, from the byte `offset` on, counted from 0; fewer at its end."""
        return self._asked(Data, Read(path_of(path), offset, count)).data

    def pieces(self, path: PathLike) -> Iterator[bytes]:
        """The bytes of a file, a mebibyte at a time."""
        with self.held():
            node = self.stat(path)
            queries = queries_of([path_of(path)], node.size)
            with closing(self.ask_all(and_node(queries))) as answers:
                yield from bytes_as_seen(queries, node, answers)

    def list(self, path: PathLike = "/") -> Tuple[Name, ...]:
        """The names in a directory, with their kinds, in stored order. Raises `NotFound` or `NotDirectory`."""
        return self._asked(Names, ListQuery(path_of(path))).names

    def stat(self, path: PathLike) -> Node:
        """Kind, moment and size of a path: the bytes of a file, the names of a directory. Raises `NotFound`."""
        return self._asked(Node, Stat(path_of(path)))

    def find(self, path: PathLike) -> Optional[Node]:
        """Kind, moment and size of a path, or None if nothing is there."""
        try:
            return self.stat(path)
        except NotFound:
            return None

    # ---- what the ledger knows

    def known_files(self) -> Files:
        """The files that this ledger stored on the volume, with their sizes, moments, SHA-256, commits and numbers. It does not ask the
        volume, so it does not know what other clients did since."""
        from ..ledger.digests import Files

        ledger = self.session().ledger
        volume = ledger.volume(self.endpoint.key())
        if volume is None:
            raise UsageError(f"{self.endpoint}: the ledger {shown(ledger.path)} knows no volume there")
        return Files(ledger, volume)

    def digest_of(self, path: PathLike) -> Optional[bytes]:
        """The SHA-256 of the file at a path, as this ledger sent it, also of one in parts. None if the ledger does not have it, or if
        the volume has another size or moment there now."""
        from ..ledger.digests import KnownWhole as Whole

        files, names = self.known_files(), path_of(path)
        found: Union[SentFile, KnownWhole, None] = files.now.get(names) or files.wholes.get(names)
        if found is None:
            return None
        parts = found.parts if isinstance(found, Whole) else (found.path,)
        with self.held():
            return found.sha256 if all(self._is_as_sent(files.now[part]) for part in parts) else None

    def _is_as_sent(self, known: SentFile) -> bool:
        """Whether the volume has a file of this size and moment at its path."""
        return self.find(known.path) == Node(NodeKind.FILE, known.moment, known.size)

    # ---- whole trees

    def walk(self, path: PathLike = "/") -> Iterator[Tuple[Path, Tuple[Name, ...]]]:
        """Yields each directory from a path on, with its names. A directory comes before those below it."""
        from .tree import walk

        return walk(self, path_of(path))

    def put_tree(
        self, local: str, path: PathLike, *, parents: bool = False, split: bool = False, rewrite: bool = False, skip_odd: bool = False,
        escape: bool = False, delete_source: bool = False, verify: bool = False, dry_run: bool = False, moment: Literal["mtime", "now"] = "mtime",
        image: Optional[str] = None, told: Optional[StepTold] = None,
    ) -> ImportSummary:
        """Stores a folder as a directory; a file whose bytes are there already is left alone, unless `rewrite`.

        The options are those of `udfburn-client put`. `image` is the image behind a socket, whose blocks are counted. `told` is called for
        each step with what was done, the path, its bytes and its commit. Raises `DoesNotFit` before anything is sent, and `Differs` where
        a file was not stored or not deleted.
        """
        from .jobs import ImportOptions
        from .tree import put_tree
        from .walk import quiet

        options = ImportOptions(
            recursive=True, parents=parents, rewrite=rewrite, split=split, skip_odd=skip_odd, escape=escape, delete_source=delete_source,
            verify=verify, dry_run=dry_run, moment=moment, image=image,
        )
        return put_tree(self, local, path_of(path), options, told or quiet)

    def get_tree(self, path: PathLike, local: str, *, split: bool = False, force: bool = False, told: Optional[StepTold] = None) -> int:
        """Copies a directory into a local folder, and gives the count of its files. The folder is new, or an interrupted copy made it,
        unless `force`. With `split` a file in parts is one file. Raises `SourceError` where a file was not copied."""
        from .fetch import get_tree
        from .walk import quiet

        return get_tree(self, path_of(path), local, split, force, told or quiet)

    def verify_tree(
        self, local: str, path: PathLike, *, split: bool = False, skip_odd: bool = False, escape: bool = False, told: Optional[StepTold] = None,
    ) -> Comparison:
        """Compares a folder with a directory: that all that is here is there, with the same bytes. The options are those of
        `udfburn-client verify`."""
        from .compare import verify_tree
        from .walk import quiet

        return verify_tree(self, local, path_of(path), split, skip_odd, told or quiet, escape)

    def remove_tree(self, path: PathLike) -> int:
        """Removes a directory and everything below it. Returns how many files and directories it removed."""
        from .tree import remove_tree

        return remove_tree(self, path_of(path))


__all__ = ["Client", "UdfburnError"]
