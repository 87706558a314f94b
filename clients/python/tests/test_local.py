"""Local files: what is refused before anything is sent, what changes while it is read, and what is deleted."""

from __future__ import annotations

import os
import socket
import unittest
from types import SimpleNamespace
from typing import List, Optional, Tuple
from unittest import mock

from udfburn import Client
from udfburn import protocol as p
from udfburn.base import errors as e
from udfburn.base.beneath import place_of
from udfburn.local.sources import FileIdentity, Scan, Source, delete, read_parts, scan
from udfburn.protocol.units import Moment
from udfburn.trees import tree
from udfburn.trees.jobs import Job
from udfburn.trees.tree import ImportOptions, put_all

from .model import Volume
from .server import request_of
from .with_files import Local


class Preflight(Local):
    def test_names(self) -> None:
        self.write("good")
        bad = {
            b"\xff\xfe": "not UTF-8", "\U0001F600".encode(): "U+1F600", "a\uFEFF".encode(): "U+FEFF", b"a" * 255: "255 bytes",
            b"\xed\xa0\x80": "not UTF-8",
        }
        for name in bad:
            with open(os.path.join(os.fsencode(self.folder), name), "wb"):
                pass
        told = self.refused()
        for why in bad.values():
            self.assertIn(why, told)
        self.assertEqual(len(told.split("\n")), len(bad), told)
        told.encode()

    def test_odd_files(self) -> None:
        self.write("good")
        os.symlink("good", os.path.join(self.folder, "link"))
        os.symlink("/nowhere", os.path.join(self.folder, "broken"))
        os.symlink(".", os.path.join(self.folder, "loop"))
        os.mkfifo(os.path.join(self.folder, "pipe"))
        listener = socket.socket(socket.AF_UNIX)
        listener.bind(os.path.join(self.folder, "unix"))
        listener.close()
        told = self.refused()
        for name, why in (("link", "symbolic link"), ("broken", "symbolic link"), ("loop", "symbolic link"), ("pipe", "named pipe"), ("unix", "socket")):
            self.assertRegex(told, f"{name}: is a {why}")
        summary = self.put(skip_odd=True)
        self.assertEqual((summary.files, len(summary.skipped)), (1, 5))
        self.assertEqual(list(self.volume.files()), [("x", "good")])

    def test_sizes_depths_and_counts(self) -> None:
        with open(self.write("big"), "r+b") as file:
            file.truncate(p.limits.GREATEST_FILE + 1)
        self.write("/".join("d" * 15) + "/deep")
        for index in range(513):
            self.write(f"many/{index}", b"")
        told = self.refused()
        self.assertIn(f"big: has {p.limits.GREATEST_FILE + 1} bytes", told)
        self.assertIn("has 17 names", told)
        self.assertIn("513 names", told)

    def test_a_folder_that_goes_on_and_on(self) -> None:
        """It is refused where it is too deep, and not followed to its end."""
        os.makedirs(os.path.join(self.folder, *("d" * 40)))
        told = self.refused()
        self.assertIn("has 17 names", told)
        self.assertEqual(len(told.split("\n")), 1, told)

    def test_too_many_files_for_the_volume(self) -> None:
        with mock.patch.object(p.limits, "NODES", 20):
            for index in range(30):
                self.write(str(index))
            self.assertIn("would have 32 files and directories, and has at most 20", self.refused())

    def test_kinds_and_parents(self) -> None:
        client = self.client()
        client.makedirs("/x/a")
        client.create("/x/b", b"")
        client.close()
        self.write("a")
        self.write("b/c")
        told = self.refused()
        self.assertIn("/x/a: is a directory", told)
        self.assertIn("/x/b: is a file, and is to be a directory", told)
        local = self.write("one")
        with self.client() as client:
            with self.assertRaisesRegex(e.DoesNotFit, "/no: is not a directory"):
                put_all(client, [(local, ("no", "one"))], ImportOptions())
            put_all(client, [(local, ("no", "such", "one"))], ImportOptions(parents=True))
            with self.assertRaisesRegex(e.DoesNotFit, "more than one"):
                put_all(client, [(local, ("same",)), (self.write("two"), ("same",))], ImportOptions())
            with self.assertRaisesRegex(e.DoesNotFit, "-r stores folders"):
                put_all(client, [(self.folder, ("y",))], ImportOptions())
            with self.assertRaisesRegex(e.DoesNotFit, "No such file"):
                put_all(client, [(os.path.join(self.folder, "missing"), ("y",))], ImportOptions())

    def test_a_path_of_two_files_of_which_the_volume_has_one(self) -> None:
        """The one that is there would be replaced by the other, when its own source is gone."""
        here, there = self.write("here/a", b"one"), self.write("there/a", b"two")
        big = self.write("large/big", bytes(p.limits.FILE + 1))
        with self.client() as client:
            put_all(client, [(here, ("a",)), (big, ("big",))], ImportOptions())
            options = ImportOptions(skip_same=True, delete_source=True)
            for other, path in ((there, ("a",)), (there, ("big",))):
                with self.assertRaisesRegex(e.DoesNotFit, f"/{path[0]}: more than one"):
                    put_all(client, [(here, ("a",)), (big, ("big",)), (other, path)], options)
        self.assertTrue(os.path.exists(here) and os.path.exists(big))
        self.assertEqual(self.volume.files()[("a",)], b"one")

    def test_a_dry_run_does_nothing(self) -> None:
        local = self.write("a")
        steps: List[Tuple[str, p.Path]] = []
        with self.client() as client:
            summary = put_all(client, [(self.folder, ("x",))], ImportOptions(recursive=True, dry_run=True, delete_source=True), lambda what, path, *_: steps.append((what, path)))
        self.assertEqual(steps, [("would make", ("x",)), ("would store", ("x", "a"))])
        self.assertEqual((summary.files, self.volume.commits), (1, 0))
        self.assertTrue(os.path.exists(local))
        self.assertFalse(os.path.exists(self.ledger))

    def test_the_program_that_looks_at_the_image(self) -> None:
        """It is the one that is named, also where the requests go to a socket."""
        local, image = self.write("a"), os.path.join(self.room, "disc.img")
        seen: List[str] = []
        with mock.patch("udfburn.image.blocks.space_of", lambda image, program, client: seen.append(program)), mock.patch.dict(os.environ, clear=True):
            with Client(f"unix:{self.server.path}", ledger=self.ledger, program="/opt/udfburn") as client:
                put_all(client, [(local, ("a",))], ImportOptions(image=image))
        self.assertEqual(seen, ["/opt/udfburn"])


class Changes(Local):
    """Sources that change."""

    def test_while_it_is_read(self) -> None:
        """A file that is written to between the first look and the last is not stored, by name; others are."""
        local, other = self.write("a", b"first"), self.write("b", b"other")
        real = os.fstat
        seen: List[int] = []

        def fstat(descriptor: int) -> os.stat_result:
            status = real(descriptor)
            if os.readlink(f"/proc/self/fd/{descriptor}") == local:
                seen.append(descriptor)
                if len(seen) == 1:
                    with open(local, "ab") as file:
                        file.write(b" and more")
            return status

        with mock.patch("udfburn.local.sources.os.fstat", fstat):
            summary = self.put(delete_source=True)
        self.assertRegex(summary.failures[0], "a: changed while it was read")
        self.assertEqual((os.path.exists(local), os.path.exists(other)), (True, False))
        self.assertNotIn(("x", "a"), self.volume.nodes)

    def test_before_it_is_deleted(self) -> None:
        local = self.write("a", b"first")

        def before(payload: bytes) -> Optional[p.Answer]:
            if isinstance(request_of(payload), p.Create):
                with open(local, "wb") as file:
                    file.write(b"newer")
            return None

        self.server.before = before
        summary = self.put(delete_source=True)
        self.assertRegex(summary.failures[0], "changed .* is not deleted")
        with open(local, "rb") as file:
            self.assertEqual(file.read(), b"newer")

    def test_two_changes_in_one_tick(self) -> None:
        """Older systems give both one time: then a file that was read between them is not taken for the one that is there."""
        fstat, named = os.fstat, os.stat

        class ByTicks:
            """What an older system says of a file: its times are those of the last tick, of 10 ms here."""

            def __init__(self, status: os.stat_result):
                self.status = status

            def __getattr__(self, name: str) -> int:
                told: int = getattr(self.status, name)
                return told // 10**7 * 10**7 if name.endswith("time_ns") else told

        with mock.patch("udfburn.base.beneath.os.fstat", lambda descriptor: ByTicks(fstat(descriptor))), \
                mock.patch("udfburn.base.beneath.os.stat", lambda *words, **how: ByTicks(named(*words, **how))):
            for name in "abc":
                local, found = self.write(name, b"first"), Scan()
                scan(local, (name,), False, False, found)
                self.assertEqual(list(read_parts(found.files[0])), [b"first"])
                self.write(name, b"later")
                with self.assertRaises(e.SourceChanged):
                    delete(found.files[0])
                self.assertTrue(os.path.exists(local))

    def test_another_file_of_the_same_name(self) -> None:
        local = self.write("a", b"first")
        found = Scan()
        scan(local, ("a",), False, False, found)
        os.rename(local, local + ".old")
        self.write("a", b"other")
        os.utime(local, ns=(found.files[0].identity.modified,) * 2)
        with self.assertRaises(e.SourceChanged):
            delete(found.files[0])
        os.unlink(local)
        os.symlink(local + ".old", local)
        with self.assertRaises(e.SourceError):
            list(read_parts(found.files[0]))

    def test_links_of_one_file(self) -> None:
        local = self.write("a")
        os.link(local, os.path.join(self.folder, "b"))
        summary = self.put(delete_source=True)
        self.assertEqual((summary.deleted, summary.failures), (2, []))

    def test_one_that_cannot_be_read(self) -> None:
        local = self.write("a")
        self.write("b")
        real = os.open

        def opened(path: str, *rest: int, **how: int) -> int:
            if path == "a":
                raise PermissionError(13, "Permission denied")
            return real(path, *rest, **how)

        with mock.patch("udfburn.base.beneath.os.open", opened):
            summary = self.put(delete_source=True)
        self.assertEqual((summary.files, summary.failures), (1, [f"{local}: Permission denied"]))
        self.assertTrue(os.path.exists(local))

    def test_the_time_of_access_stays(self) -> None:
        local = self.write("a")
        # A file whose access is older than its change gets a new time when it is read, but on a system that keeps none.
        os.utime(local, ns=(10**18, 2 * 10**18))
        self.assertEqual(self.put().files, 1)
        self.assertEqual(os.stat(local).st_atime_ns, 10**18)

    def test_a_user_whose_file_it_is_not(self) -> None:
        """The system lets nobody else leave the time of access alone."""
        local, real = self.write("a", b"of another"), os.open
        flags: List[int] = []

        def opened(path: str, how: int, *rest: int, **more: int) -> int:
            if path == os.path.basename(local):
                flags.append(how)
                if how & os.O_NOATIME:
                    raise PermissionError(1, "Operation not permitted")
            return real(path, how, *rest, **more)

        with mock.patch("udfburn.base.beneath.os.open", opened):
            self.assertEqual(self.put().files, 1)
        self.assertEqual(self.volume.files()[("x", "a")], b"of another")
        self.assertEqual([bool(how & os.O_NOATIME) for how in flags], [True, False])

    def test_an_interrupt_while_it_is_closed(self) -> None:
        """It ends the import, as at any other moment."""
        self.write("a")
        self.write("b")
        real = os.close

        def close(descriptor: int) -> None:
            path = os.readlink(f"/proc/self/fd/{descriptor}")
            real(descriptor)
            if path.startswith(self.folder):
                raise KeyboardInterrupt

        with mock.patch("udfburn.local.sources.os.close", close), self.assertRaises(KeyboardInterrupt):
            self.put()
        self.assertEqual(list(self.volume.files()), [])

    def test_bytes_that_differ_on_the_volume(self) -> None:
        local = self.write("a", b"right")
        self.server.before = lambda payload: p.Data(b"wrong") if payload[0] == p.Kind.GET else None
        summary = self.put(delete_source=True, verify=True)
        self.assertRegex(summary.failures[0], "has other bytes")
        self.assertTrue(os.path.exists(local))
        self.server.before = lambda payload: None
        self.assertEqual(self.put(delete_source=True, verify=True).deleted, 1)
        self.assertFalse(os.path.exists(local))

    def test_a_reply_that_is_not_in_the_ledger(self) -> None:
        """The source stays where the ledger could not keep the reply."""
        local = self.write("a")
        from udfburn.ledger.ledger import Ledger

        real = Ledger.record

        def record(ledger: Ledger, volume: object, replies: "list[object]", requests: object) -> None:
            if replies and any("/a" in path for _, path, *_ in ledger.history(volume)):  # type: ignore[arg-type]
                raise OSError(28, "No space left on device")
            real(ledger, volume, replies, requests)  # type: ignore[arg-type]

        with mock.patch.object(Ledger, "record", record), self.assertRaises(OSError):
            self.put(delete_source=True)
        self.assertTrue(os.path.exists(local))
        self.assertEqual(self.put(delete_source=True, skip_same=True).deleted, 1)

    def test_the_ledger_itself(self) -> None:
        """A folder may have the ledger in it, which is not deleted."""
        local, self.ledger = self.write("a"), os.path.join(self.folder, "ledger.sqlite")
        with self.client() as client:
            client.mkdir("/x")
            number = client.session().ledger.client
        summary = self.put(delete_source=True)
        self.assertEqual((summary.deleted, os.path.exists(local), len(summary.failures)), (1, False, 2))
        for failure, name in zip(summary.failures, ("ledger.sqlite", "ledger.sqlite.lock")):
            self.assertRegex(failure, f"/{name}: is of the ledger that is in use .*is not deleted")
        with self.client() as client:
            self.assertEqual(client.session().ledger.client, number)

    def test_what_is_there_already(self) -> None:
        self.write("a", b"one")
        self.write("b", b"two")
        self.put()
        commits = self.volume.commits
        self.write("b", b"TWO")
        self.write("c", b"new")
        summary = self.put(skip_same=True)
        self.assertEqual((summary.same, summary.files, self.volume.commits), (1, 2, commits + 2))
        self.assertEqual(self.volume.files()[("x", "b")], b"TWO")

    def test_another_client_is_faster(self) -> None:
        """A path that another client makes or removes between the look and the request is tried the other way."""
        self.write("a", b"mine")
        other = Volume.answer
        done: List[bool] = []

        def before(payload: bytes) -> Optional[p.Answer]:
            if isinstance(request_of(payload), p.Create) and not done:
                done.append(True)
                other(self.volume, p.Create(5, 1, Moment(0), ("x", "a"), b"theirs"))
            return None

        self.server.before = before
        self.assertEqual(self.put().files, 1)
        self.assertEqual(self.volume.files()[("x", "a")], b"mine")

    def test_lists_of_requests(self) -> None:
        """Files are stored as one list, by 64 where something is done after them, and never too many bytes at once."""
        status = os.stat(self.write("a", bytes(10)))
        source = Source(place_of(self.folder), (), FileIdentity.of(status))

        def sizes(count: int, **options: bool) -> List[int]:
            importer = tree.Importer(self.client(), ImportOptions(**options))  # type: ignore[arg-type]
            return [len(chunk) for chunk in importer._chunks(Job(source) for _ in range(count))]

        self.assertEqual(sizes(0), [])
        self.assertEqual(sizes(1500), [1024, 476])
        for option in ("verify", "delete_source"):
            self.assertEqual(sizes(150, **{option: True}), [64, 64, 22])
        with mock.patch.object(tree, "LIST_BYTES", 35):
            self.assertEqual(sizes(7), [3, 3, 1])
        with mock.patch.object(tree, "LIST_BYTES", 5):
            self.assertEqual(sizes(3), [1, 1, 1])

    def test_moments(self) -> None:
        for name, moment, wanted in (("old", -5, 0), ("late", 5_000_000_000, p.limits.MOMENT - 1), ("plain", 1_700_000_000, 1_700_000_000_000_000)):
            os.utime(self.write(name), (moment, moment))
            self.put()
            self.assertEqual(self.client().stat(f"/x/{name}").moment, wanted)

    def test_the_moment_of_now(self) -> None:
        os.utime(self.write("a"), (5, 5))
        with mock.patch("udfburn.wire.operations.time", SimpleNamespace(time_ns=lambda: 1_700_000_000_123_456_789)):
            self.put(moment="now")
        self.assertEqual(self.client().stat("/x/a").moment, 1_700_000_000_123_456)


if __name__ == "__main__":
    unittest.main()
