"""Whole trees, stored on a volume."""

from __future__ import annotations

from collections import deque
from contextlib import closing, suppress
from typing import TYPE_CHECKING, Callable, Deque, Dict, Iterable, Iterator, List, Optional, Set, Tuple, Type

from ..base.errors import Differs, DoesNotFit, Full, SourceError, UsageError
from ..base.older_parts import base_of, may_be_in_parts, part_path
from ..base.unfinished import unfinished_path
from ..local.sources import Folder, Scan, Source, delete, origin_of, scan, shown
from ..protocol import AnyRequest, Code, Create, MakeDir, Node, NodeKind, Path, Remove, Rename, Replace, Stat, limits, printed
from ..protocol.units import Moment
from ..wire.connection import find_program
from ..wire.operations import Operation, Outcome, now
from ..wire.refusals import refusal
from .ahead import Ahead
from .growing import find_begun, naming, piece_request
from .jobs import ImportOptions, ImportSummary, Job, reads_back, same_pieces
from .older_parts import files_in_parts, left_parts
from .preflight import Plan, Present, plan, refuse_files
from .stored import StoredFile
from .walk import StepTold, look_up, quiet, remove_paths, remove_tree, walk

if TYPE_CHECKING:
    from ..image.blocks import Space
    from .client import Client

FILES_AT_ONCE = 64
"""Files that are stored before the first of them are read back or deleted, or what an earlier one left is removed."""

LIST_FILES, LIST_BYTES = 1024, 64 * limits.FILE
"""Files that are stored as one list of requests where nothing is done with them afterwards, and the bytes of files in a list. Memory has those
of files that other clients make too, but none of files that grow."""


class Importer:
    """Stores local files and folders."""

    def __init__(self, client: Client, options: ImportOptions, told: StepTold = quiet, stored: Optional[Callable[[Outcome], None]] = None):
        """`told` is called for each step; `stored`, where it is given, of each file in place of that, with its digest."""
        if options.verify and options.dry_run:
            raise UsageError("nothing is read back of a dry run")
        self.client = client
        # A commit whose packet was not as it was sent is on the disc all the same, and a repeat of its request is acknowledged by it.
        reads_back = options.verify or client.endpoint.kind == "device" and not options.dry_run
        self.options = options._replace(verify=reads_back)
        self.told, self.stored = told, stored
        self.summary = ImportSummary()
        self.present = Present()
        self.same: List[Job] = []
        self._kept: List[Job] = []
        self._ahead = Ahead()
        # Files whose pieces are all there, and which have not their own names yet.
        self._whole: Deque[Job] = deque()

    def plan(self, jobs: Iterable[Tuple[str, Path]]) -> Plan:
        """Looks at what is to be stored and at what is there, and raises `DoesNotFit` with all that speaks against it."""
        options = self.options
        found = Scan()
        wanted = list(jobs)
        for local, path in wanted:
            scan(local, path, options.recursive, options.skip_odd, found, options.escape)
        refuse_files(found)
        self.summary.skipped = found.skipped
        with self.client.held():
            # What an earlier process began comes first, so that it changes nothing after this look.
            if not options.dry_run:
                self.client.resume()
            whole = bool(found.folders) or options.image is not None or any(file.identity.size > limits.FILE for file in found.files)
            files = [file.path for file in found.files]
            near = [path for file in files for path in (file, part_path(file, 0, False), base_of(file))]
            self.present = look_up(self.client, [] if whole else near + [path for _, path in wanted], whole)
            in_parts = self._find_parts(found)
            if not options.rewrite:
                self._leave_same(found, in_parts)
            if not options.dry_run:
                self._find_begun(found)
        if options.parents:
            self._add_parents(found, [path for _, path in wanted])
        left = {source.path for source in found.files}
        planned = plan(found, self.present, self._space(), self._replaced(in_parts, left))
        self.summary.blocks, self.summary.left = planned.blocks, planned.left
        self.summary.not_kept = found.not_kept.counts()
        if planned.faults:
            raise DoesNotFit("\n".join(planned.faults))
        return planned

    def _find_parts(self, found: Scan) -> Dict[Path, StoredFile]:
        """The files that the volume has in parts, as earlier versions stored them, unless something that is stored now has the path of one."""
        own = {file.path for file in found.files} | {folder.path for folder in found.folders}
        files = [file.path for file in found.files if may_be_in_parts(file.path, self.present.kinds)]
        self.summary.skipped += left_parts(self.client, sorted(own - {folder.path for folder in found.folders}), self.present.kinds, own)
        there = files_in_parts(self.client, files)
        return {path: file for path, file in there.items() if own.isdisjoint(file.parts + file.folders)}

    def _replaced(self, in_parts: Dict[Path, StoredFile], left: Set[Path]) -> Dict[Path, List[Path]]:
        """What goes when files take the place of their parts. Without `split` nothing does: the parts may be files of their own."""
        there = {path: file for path, file in in_parts.items() if path in left}
        if self.options.split:
            return {path: file.removal() for path, file in there.items()}
        self.summary.skipped += [
            f"{printed(file.parts[0])}: stays, since it may be a file of its own as well as a part of {printed(path)}; --split takes it for a part"
            for path, file in sorted(there.items())
        ]
        return {}

    def _find_begun(self, found: Scan) -> None:
        """Looks for what an earlier run began of files that are stored piece by piece."""
        growing = [source for source in found.files if source.identity.size > limits.FILE]
        if growing:
            begun = find_begun(self.client, self._number(), growing)
            found.kept.update(begun.kept)
            found.unfinished, found.faults = begun.others, found.faults + begun.faults

    def _number(self) -> int:
        """The number of this client."""
        return self.client.session().ledger.client

    def _add_parents(self, found: Scan, paths: List[Path]) -> None:
        """Plans the directories above that are missing."""
        missing = sorted({path[:depth] for path in paths for depth in range(1, len(path))} - set(self.present.kinds))
        found.folders[:0] = [Folder("", path, now() * 1000) for path in missing]

    def _space(self) -> Optional[Space]:
        """What the image has left, where there is one to look at."""
        endpoint = self.client.endpoint
        image = self.options.image or (endpoint.path if endpoint.kind == "image" else None)
        if image is None:
            return None
        try:
            program = find_program(endpoint.program)
        except UsageError:
            return None
        # A dry run opens no ledger, and counts one client more: 0 is nobody's number.
        from ..image.blocks import space_of

        return space_of(image, program, 0 if self.options.dry_run else self.client.session().ledger.client)

    def run(self, planned: Plan) -> ImportSummary:
        """Stores what was planned."""
        if self.options.dry_run:
            return self._tell_plan(planned)
        try:
            with self.client.held():
                self._make(planned)
                self._finish_same()
                if planned.unfinished:
                    remove_paths(self.client, planned.unfinished, self.told)
                for chunk in self._chunks((Job(source, planned.kept.get(source.path)) for source in planned.files), bool(planned.parts)):
                    self._chunk(chunk, planned)
        finally:
            self._ahead.close()
        return self.summary

    def _chunks(self, jobs: Iterable[Job], has_parts: bool = False) -> Iterator[List[Job]]:
        """The files that are stored together: the fewer lists, the less often nothing is under way."""
        is_done_later = self.options.verify or self.options.delete_source or has_parts
        most = FILES_AT_ONCE if is_done_later else LIST_FILES
        chunk: List[Job] = []
        size = 0
        for job in jobs:
            counted: int = job.source.identity.size if is_done_later or not job.grows else 0
            if chunk and (len(chunk) == most or size + counted > LIST_BYTES):
                yield chunk
                chunk, size = [], 0
            chunk.append(job)
            size += counted
        if chunk:
            yield chunk

    def _tell_plan(self, planned: Plan) -> ImportSummary:
        for folder in planned.folders:
            self.told("would make", folder.path, 0, 0)
        for job in self.same:
            self.told("same", job.source.path, job.source.identity.size, 0)
        for source in planned.files:
            self.told("would replace" if source.path in self.present.kinds else "would store", source.path, source.identity.size, 0)
        for paths in planned.parts.values():
            for path in paths:
                self.told("would remove", path, 0, 0)
        self.summary.files, self.summary.folders = len(planned.files), len(planned.folders)
        self.summary.bytes = sum(source.identity.size for source in planned.files)
        return self.summary

    def _moment(self, modified: Moment) -> Moment:
        return modified if self.options.moment == "mtime" else now()

    def _make(self, planned: Plan) -> None:
        """Makes the directories. One that another client made meanwhile is as good."""
        for outcome in self.client.run(Operation(MakeDir, folder.path, self._moment(folder.moment())) for folder in planned.folders):
            if outcome.code is Code.DONE:
                self.summary.folders += 1
                self.told("made", outcome.operation.path, 0, outcome.commit)
            elif outcome.code is not Code.EXISTS:
                raise refusal(outcome)

    def _chunk(self, chunk: List[Job], planned: Plan) -> None:
        """Stores some files, and then reads them back and deletes their sources where that is asked for."""
        self._store(chunk, self.client.run(self._operations(chunk)))
        for job in chunk:
            if job.stored():
                self.summary.files += 1
                self.summary.bytes += job.source.identity.size
            else:
                self.summary.failures.append(job.failure or f"{printed(job.source.path)}: was not stored")
        stored = [job for job in chunk if job.stored()]
        self._remove_parts([job.source.path for job in stored], planned)
        if self.options.verify:
            stored = self._read_back(stored)
        if self.options.delete_source:
            self._delete(stored)

    # ---- one chunk

    def _operations(self, jobs: List[Job]) -> Iterator[Operation]:
        """The requests of files, which are read as they are sent. One that cannot be read is left out. Those that rename files come
        once all pieces of these are acknowledged, with pieces of later files."""
        for job, index, data, taken in self._ahead.parts(jobs):
            sha256 = taken()
            yield from self._renames()
            if job.same.get(index) == sha256:
                self._count(job)
                continue
            if job.grows and (job.failure or index in job.same):
                # What follows would be another file's: it is one whole, or it does not get its name.
                job.fail(f"{shown(job.source.local)}: changed after it was first seen: store it again")
                continue
            yield self._request(job, index, data)._replace(
                tag=(job, index), sha256=sha256, origin=origin_of(job.source, index * limits.FILE),
            )

    def _request(self, job: Job, index: int, data: bytes) -> Operation:
        """The request that stores a piece."""
        moment = self._moment(job.source.moment())
        if job.grows:
            return piece_request(unfinished_path(self._number(), job.source.path), index, data, moment)
        path = job.source.path
        return Operation(Replace if path in self.present.kinds else Create, path, moment, data)

    def _count(self, job: Job) -> None:
        """Counts a piece that is there."""
        job.done += 1
        if job.grows and job.done == job.count and job.failure is None:
            self._whole.append(job)

    def _renames(self) -> Iterator[Operation]:
        """The requests by which files get their names whose pieces are all there."""
        while self._whole:
            yield from self._rename(self._whole.popleft())

    def _rename(self, job: Job) -> List[Operation]:
        """The requests by which a file gets its name: a file that is there goes right before."""
        moment, path = self._moment(job.source.moment()), job.source.path
        named = naming(unfinished_path(self._number(), path), path, moment, tag=(job, job.count), whole=job.of_whole())
        there = self.present.kinds.get(path) is NodeKind.FILE
        return [Operation(Remove, path, moment, tag=(job, job.count)), named] if there else [named]

    def _store(self, jobs: List[Job], outcomes: Iterator[Outcome]) -> None:
        """Takes the outcomes. A path that another client made or removed meanwhile is tried the other way, a few times."""
        again: Deque[Operation] = deque()
        for _ in range(5):
            again.clear()
            self._take_all(outcomes, again)
            once_more = [operation for refused in again for operation in self._once_more(refused)] + list(self._renames())
            if not once_more:
                return
            outcomes = self.client.run(once_more)
        for operation in again:
            operation.tag[0].fail(f"{printed(operation.path)}: another client makes and removes it all the time")

    def _take_all(self, outcomes: Iterable[Outcome], again: Deque[Operation]) -> None:
        """Takes outcomes. Where there is no room for more, what is whole gets its name before that is raised, if nothing is removed for it:
        there may be no room for the name then."""
        try:
            for outcome in outcomes:
                self._take(outcome, again)
        except Full:
            self._whole = deque([job for job in self._whole if job.source.path not in self.present.kinds])
            names = list(self._renames())
            if names:
                self._take_all(self.client.run(names), again)
            raise

    def _take(self, outcome: Outcome, again: Deque[Operation]) -> None:
        operation = outcome.operation
        job: Job = operation.tag[0]
        if job.grows:
            self._take_growing(job, outcome, again)
        elif outcome.code is Code.DONE:
            job.done += 1
            self.present.add(operation.path, NodeKind.FILE)
            if self.stored is not None:
                self.stored(outcome)
            else:
                self.told("stored", operation.path, len(operation.data), outcome.commit)
        elif (operation.kind, outcome.code) in ((Create, Code.EXISTS), (Replace, Code.NOT_FOUND)):
            other: Type[AnyRequest] = Replace if operation.kind is Create else Create
            again.append(operation._replace(kind=other))
        else:
            job.fail(str(refusal(outcome)))

    def _once_more(self, operation: Operation) -> List[Operation]:
        """The requests that do what was refused since another client made or removed the path."""
        if operation.kind is not Rename:
            return [operation]
        job: Job = operation.tag[0]
        node = self.client.find(operation.to)
        self.present.kinds.pop(operation.to, None)
        if node is not None:
            self.present.add(operation.to, node.kind)
        if node is not None and node.kind is NodeKind.DIRECTORY:
            job.fail(f"{printed(operation.to)}: is a directory, and {shown(job.source.local)} is a file")
            return []
        return self._rename(job)

    def _take_growing(self, job: Job, outcome: Outcome, again: Deque[Operation]) -> None:
        """Takes an outcome of a file that is stored piece by piece."""
        operation = outcome.operation
        if operation.kind is Remove and outcome.code in (Code.DONE, Code.NOT_FOUND):
            self.present.kinds.pop(operation.path, None)
        elif operation.kind is Rename and outcome.code is Code.EXISTS:
            again.append(operation)
        elif outcome.code is not Code.DONE:
            job.fail(why_refused(outcome))
        elif operation.kind is Rename:
            job.named = True
            self.present.add(operation.to, NodeKind.FILE)
            if self.stored is not None:
                self.stored(outcome)
            else:
                self.told("stored", operation.to, job.source.identity.size, outcome.commit)
        else:
            self._count(job)

    def _leave_same(self, found: Scan, in_parts: Dict[Path, StoredFile]) -> None:
        """Takes the files out of which the volume has all bytes already, as one or in parts."""
        jobs = self._sized(found.files, in_parts)
        with closing(self.client.ask_all(query for job in jobs for query in job.queries())) as answers:
            for job in jobs:
                # One that cannot be read is reported when it is stored.
                with suppress(SourceError):
                    job.same = same_pieces(job.source, job.count, answers)
                if not job.is_still(answers):
                    job.same = {}
        self.same = [job for job in jobs if len(job.same) == job.count]
        found.same = [job.source for job in self.same]
        if self.options.moment == "mtime":
            found.not_kept.newer = sum(job.moment != job.source.moment() for job in self.same)
        left = set(map(id, found.same))
        found.files = [source for source in found.files if id(source) not in left]

    def _sized(self, sources: List[Source], in_parts: Dict[Path, StoredFile]) -> List[Job]:
        """The files of which the volume has as many bytes."""
        jobs: List[Job] = []
        there = [source for source in sources if self.present.kinds.get(source.path) is NodeKind.FILE or source.path in in_parts]
        with closing(self.client.ask_all(Stat(source.path) for source in there if source.path not in in_parts)) as answers:
            for source in there:
                file = in_parts.get(source.path)
                answer = next(answers) if file is None else file
                if isinstance(answer, (Node, StoredFile)) and answer.size == source.identity.size:
                    jobs.append(Job(source, parts=file.parts if file is not None else ()))
                    jobs[-1].moment = answer.moment
        return jobs

    def _finish_same(self) -> None:
        """What is done with the files that the volume has: their bytes were read just now."""
        for job in self.same:
            self.summary.same += 1
            self.told("same", job.source.path, job.source.identity.size, 0)
        if self.options.delete_source:
            self._delete(self.same)

    def _remove_parts(self, stored: List[Path], planned: Plan) -> None:
        """Removes the parts of an earlier version whose place these files took."""
        paths = [path for name in stored for path in planned.parts.get(name, [])]
        if paths:
            remove_paths(self.client, paths, self.told)

    def _read_back(self, jobs: List[Job]) -> List[Job]:
        """The files whose bytes are on the volume as they were sent."""
        verified = []
        with closing(self.client.ask_all(query for job in jobs for query in job.queries())) as answers:
            for job in jobs:
                if reads_back(job, answers):
                    verified.append(job)
                    self.summary.verified += 1
                else:
                    self.summary.failures.append(f"{printed(job.source.path)}: the volume has other bytes than were stored")
        return verified

    def delete_kept(self) -> None:
        """Deletes the local files whose deletion was put off."""
        kept, self._kept = self._kept, []
        self._delete_now(kept)

    def _delete(self, jobs: List[Job]) -> None:
        """Deletes local files, or puts that off."""
        if self.options.delete_last:
            self._kept += jobs
        else:
            self._delete_now(jobs)

    def _delete_now(self, jobs: List[Job]) -> None:
        """Deletes local files, each as it was read, but not what this command keeps its numbers and replies in."""
        kept = self.client.session().ledger.files()
        for job in jobs:
            try:
                if (job.source.identity.device, job.source.identity.inode) in kept:
                    raise SourceError(f"{shown(job.source.local)}: is of the ledger that is in use")
                delete(job.source)
                self.summary.deleted += 1
            except SourceError as error:
                self.summary.failures.append(f"{error} (it was stored, and is not deleted)")


def why_refused(outcome: Outcome) -> str:
    """Why a file that is stored piece by piece was refused."""
    operation = outcome.operation
    if operation.kind is Rename and outcome.code is not Code.NOT_FOUND:
        return str(refusal(outcome))
    job: Job = operation.tag[0]
    return f"{printed(job.source.path)}: was not stored ({refusal(outcome)}): run the same command again"


def put_all(client: Client, jobs: Iterable[Tuple[str, Path]], options: ImportOptions, told: StepTold = quiet) -> ImportSummary:
    """Stores local files and folders at paths."""
    importer = Importer(client, options, told)
    return importer.run(importer.plan(jobs))


def put_tree(client: Client, local: str, path: Path, options: ImportOptions, told: StepTold = quiet) -> ImportSummary:
    """Stores a folder as a directory. Raises where a file was not stored."""
    summary = put_all(client, [(local, path)], options, told)
    if summary.failures:
        raise Differs("\n".join(summary.failures))
    return summary


__all__ = ["ImportOptions", "ImportSummary", "Importer", "StepTold", "put_all", "put_tree", "quiet", "remove_tree", "walk"]
