"""A connection that is opened again when it is lost, and queries over it."""

from __future__ import annotations

import time
from collections import deque
from contextlib import contextmanager
from itertools import islice
from typing import Deque, Generator, Iterable, Iterator, List, Optional, Tuple, Type

from ..base.disk import left_if_short
from ..base.errors import DAMAGE, ConnectionFailed, Damaged, DiskFull, DriveFailed, OutOfMemory, UdfburnError, UsageError
from ..protocol import (
    DAMAGED, FAULT, MEMORY, Answer, BadAnswer, Bare, Data, Gap, Get, List as ListQuery, Malformed, Names, Node, Query, Read, Committed,
    Stale, encode_message, frame, shown,
)
from .connection import Connection, Lost
from .endpoint import Endpoint

TURN = 1.0
"""Seconds after which a conversation is ended between two requests, so that others get their turn."""

BEGINNINGS = 4
"""A conversation lasts at least this many times as long as its opening took: each opening may read a full volume from a slow disk."""

LEAST_WAIT = 0.2
"""Seconds that an answer gets at least, however long was waited before."""

COMMIT = 1_500_000
"""Bytes that a commit may take on the medium, at most: those of a file, of two directories and of a table."""

QUERIES_AT_ONCE = 16
"""Queries that are under way at once."""


class Patience:
    """Pauses that grow, up to a limit of time without any progress."""

    def __init__(self, seconds: float):
        self.seconds = seconds
        self.progress()

    def progress(self) -> None:
        """Something went on: the pauses are short again."""
        self.pause = 0.01
        self.began: Optional[float] = None

    def waited(self, since: float) -> None:
        """Counts a wait that came to nothing, from its beginning."""
        self.began = since if self.began is None else min(self.began, since)

    def spent(self) -> float:
        """Seconds without any progress."""
        return 0.0 if self.began is None else time.monotonic() - self.began

    def wait(self, kind: Type[UdfburnError], why: str) -> None:
        """Pauses, or raises an error of this kind where the time is up."""
        now = time.monotonic()
        if self.began is None:
            self.began = now
        if now - self.began + self.pause > self.seconds:
            raise kind(f"{why} (tried for {now - self.began:.1f} seconds)")
        time.sleep(self.pause)
        self.pause = min(self.pause * 1.7, 2.0)


class Greeter:
    """What is done at both ends of each conversation. This one does nothing."""

    def greet(self, connection: Connection) -> None:
        """Called before anything else is sent. What it raises ends the conversation; `Lost` has it tried again."""

    def part(self, connection: Connection) -> None:
        """Called before the conversation is closed."""


class RetryingConnection:
    """A connection to an endpoint, opened when it is needed."""

    def __init__(self, endpoint: Endpoint, patience: float = 10.0, timeout: float = 120.0):
        self.endpoint = endpoint
        self.patience = Patience(patience)
        self.timeout = timeout
        self.image = endpoint.path if endpoint.kind == "image" else None
        self._greeter = Greeter()
        self._connection: Optional[Connection] = None
        self._opened = self._turn = 0.0
        self._claimed = False

    def greeted_by(self, greeter: Greeter) -> None:
        """Has each conversation greeted. One that was begun without that is ended."""
        self.drop()
        self._greeter = greeter

    def get(self) -> Connection:
        """The conversation, or a new one."""
        while self._connection is None:
            began = time.monotonic()
            # What was waited for nothing already counts. A moment is left for an answer that comes at once.
            timeout = max(self.timeout - self.patience.spent(), min(self.timeout, LEAST_WAIT))
            try:
                connection = self.endpoint.open(timeout)
            except Lost as lost:
                self.patience.waited(began)
                self.patience.wait(ConnectionFailed, f"{self.endpoint}: {lost}")
                continue
            try:
                self._greeter.greet(connection)
            except Lost as lost:
                self._end(connection)
                self.patience.wait(ConnectionFailed, f"{self.endpoint}: {lost}")
                continue
            except BaseException:
                connection.close()
                raise
            self._connection, self._opened = connection, time.monotonic()
            # At a socket it is others who are waited for.
            self._turn = max(TURN, BEGINNINGS * (self._opened - began)) if self.endpoint.kind == "image" else TURN
        return self._connection

    def drop(self) -> None:
        """Ends the conversation."""
        # Whoever is interrupted while it ends has none any more: its descriptors may be those of other files by then.
        connection, self._connection = self._connection, None
        if connection is not None:
            try:
                self._greeter.part(connection)
            finally:
                self._end(connection)

    def _end(self, connection: Connection) -> None:
        """Closes a conversation. Where it was waited for in vain, that counts."""
        if connection.since is not None:
            self.patience.waited(connection.since)
        connection.close()

    def lost(self, why: str) -> None:
        """Ends a conversation that was lost, and pauses."""
        self.drop()
        self.patience.wait(ConnectionFailed, f"{self.endpoint}: {why}")

    def over(self) -> bool:
        """Whether it is time to let others have a turn. An image that is open with the library stays open until it is closed."""
        return self._connection is not None and self.endpoint.library is None and time.monotonic() - self._opened > self._turn

    def troubled(self, answer: Answer, is_request: bool = True) -> bool:
        """Pauses where an answer says that the program is troubled: then what was asked is to be asked again. Raises where a disk has no
        room for a request: that does not pass by itself."""
        if answer not in (FAULT, MEMORY):
            return False
        if self.image is None and self._connection is not None:
            self.image = self._connection.served_image()
        self.drop()
        if answer == FAULT:
            kind, why = self._why_fault()
            if kind is DiskFull and is_request:
                raise kind(f"{self.endpoint}: {why}")
            self.patience.wait(kind, f"{self.endpoint}: {why}")
        else:
            self.patience.wait(OutOfMemory, f"{self.endpoint}: the program has no memory")
        return True

    def _why_fault(self) -> Tuple[Type[UdfburnError], str]:
        """What is likely to be wrong with a drive that fails."""
        if self.endpoint.kind == "device":
            return DriveFailed, "the recorder fails, or its disc does"
        if self.image is None:
            return DriveFailed, "the drive fails, or its disk is full: check the disk with the daemon's image"
        left = left_if_short(self.image, COMMIT)
        if left is not None:
            return DiskFull, f"the disk that {shown(self.image)} is on is full: {left:,} bytes are left. Make room; 'resume', or the same command, continues"
        return DriveFailed, f"the drive fails: check the disk that {shown(self.image)} is on"

    @contextmanager
    def claim(self) -> Iterator[None]:
        """Keeps the conversation for one list of questions or requests: its answers come in order, and are nobody else's."""
        if self._claimed:
            raise UsageError("the answers to one call are to be taken to their end before the next call of the same client")
        self._claimed = True
        try:
            yield
        finally:
            self._claimed = False

    # ---- queries

    def ask(self, query: Query) -> Answer:
        """The answer to a query."""
        return list(self.ask_all([query]))[0]

    def ask_all(self, queries: Iterable[Query]) -> Generator[Answer, None, None]:
        """The answers to queries, in order. Queries change nothing, so they are asked again where the conversation was lost."""
        source = iter(queries)
        asked: Deque[Query] = deque()
        unsent: List[Query] = []
        with self.claim():
            try:
                while True:
                    if not asked and self.over():
                        self.drop()
                    unsent += self._room(source, len(asked) + len(unsent))
                    if not asked and not unsent:
                        break
                    answer = self._exchange(asked, unsent)
                    if answer is not None:
                        self.patience.progress()
                        yield answer
            finally:
                if asked:
                    self.drop()

    def _room(self, source: Iterator[Query], under_way: int) -> List[Query]:
        """The queries that there is room for. None where others are to get their turn."""
        if under_way and self.over():
            return []
        return list(islice(source, QUERIES_AT_ONCE - under_way))

    def _exchange(self, asked: Deque[Query], unsent: List[Query]) -> Optional[Answer]:
        """Sends what is not sent yet, and takes an answer; or gives none, and all are to be asked again."""
        try:
            connection = self.get()
            if unsent:
                asked.extend(unsent)
                frames = [frame(encode_message(query)) for query in unsent]
                unsent.clear()
                connection.send(*frames)
            answer = connection.answer()
        except Lost as lost:
            unsent[:0] = asked
            asked.clear()
            self.lost(str(lost))
            return None
        if answer in (FAULT, MEMORY):
            unsent[:0] = asked
            asked.clear()
            self.troubled(answer, is_request=False)
            return None
        check_query(asked.popleft(), answer)
        return answer


def check_query(query: Query, answer: Answer) -> None:
    """Raises where an answer is none to the query."""
    if answer == DAMAGED:
        raise Damaged(DAMAGE)
    fits = {Get: Data, Read: Data, ListQuery: Names}.get(type(query), Node)
    if isinstance(answer, Bare) and answer.code >= 96:
        return
    if isinstance(answer, (Committed, Stale, Gap, Malformed)) or not isinstance(answer, fits):
        raise BadAnswer(f"{answer!r} is no answer to {query!r}")
