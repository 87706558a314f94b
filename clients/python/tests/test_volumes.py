"""Which volume is it? Older copies, other volumes, empty ones and copies that went on by themselves, in the place of the volume that
a ledger knows, with the real programs: each is refused by its name, and nothing is sent to it."""

from __future__ import annotations

import os
import shutil
import subprocess
import unittest
from hashlib import sha256
from typing import Callable, List, Optional, Type
from unittest import mock

from udfburn import Client
from udfburn.base import errors as e
from udfburn.wire.connection import ImageConnection, Lost
from udfburn.image.identity import opened_path
from udfburn.wire.operations import Operation
from udfburn.protocol import Create
from udfburn.protocol.units import Moment
from udfburn.session.recognition import see
from udfburn.session.in_flight import Group, InFlightRequest
from udfburn.session.session import Session

from .programs import UDFBURN, Daemon, WithPrograms


class Which(WithPrograms):
    """A way at which one image after another is put. These tests are of images; those of sockets are derived from them."""

    capacity = 3000
    moments = iter(range(1_000_000, 1_000_000_000, 1000))

    def setUp(self) -> None:
        super().setUp()
        self.there = self.image
        self.format_as(self.image)

    def format_as(self, image: str, label: str = "DISC", moment: Optional[int] = None) -> str:
        """Formats an image, at a moment of its own where none is given."""
        if os.path.exists(image):
            os.unlink(image)
        at = next(self.moments) if moment is None else moment
        subprocess.run([UDFBURN, "format", image, label, str(at), str(self.capacity)], check=True, stdout=subprocess.DEVNULL)
        return image

    def named(self, name: str) -> str:
        return os.path.join(self.room, name)

    def copied(self, name: str) -> str:
        """A copy of the image that is at the way."""
        return str(shutil.copy(self.there, self.named(name)))

    def place(self, image: str) -> None:
        """Puts an image at the way, in place of the one that is there, which gets the name `away`."""
        os.rename(self.there, self.named("aside"))
        os.rename(image, self.there)
        os.rename(self.named("aside"), self.named("away"))

    def at_way(self, ledger: Optional[str] = None, shared: bool = False, client: Optional[int] = None) -> Client:
        made = Client(f"image:{self.there}", client, ledger or self.ledger, UDFBURN, shared=shared)
        self.addCleanup(made.close)
        return made

    def where(self) -> List[str]:
        return ["--image", self.there]

    def store(self, path: str, data: bytes = b"data", ledger: Optional[str] = None, moment: int = 5, shared: bool = False) -> int:
        with self.at_way(ledger, shared) as client:
            return client.create(path, data, Moment(moment))

    def refused(self, error: Type[e.LedgerError], words: str) -> None:
        """Whatever is asked is refused by this error alone, and what is there stays as it is."""
        with open(self.there, "rb") as file:
            before = file.read()
        calls: List[Callable[[Client], object]] = [lambda client: client.create("/new", b""), lambda client: client.resume()]
        for call in calls:
            with self.at_way() as client, self.assertRaisesRegex(error, words) as raised:
                call(client)
            self.assertIs(type(raised.exception), error)
        with open(self.there, "rb") as file:
            self.assertEqual(file.read(), before)

    # ---- an older copy

    def test_an_older_copy_by_commands(self) -> None:
        """What was deleted once it was acknowledged stays known, whatever other volume has the same numbers."""
        other = self.named("other.img")
        self.format_as(other)
        self.run_command("put", self.write("0", b"zero"), "/0", where=["--image", other])
        self.run_command("put", self.write("1", b"one"), "/1", where=self.where())
        older = self.copied("older")
        self.run_command("put", "--delete-source", self.write("2", b"the only copy"), "/2", where=self.where())
        self.place(older)
        told = self.run_command("put", self.write("3", b"three"), "/3", where=self.where(), status=1)
        self.assertRegex(told, "older copy.*Nothing was sent")
        self.place(self.named("away"))
        self.run_command("put", self.write("3", b"three"), "/3", where=self.where())
        self.assertEqual(self.run_command("get", "/2", "-", where=self.where()), "the only copy")

    def test_an_older_copy(self) -> None:
        self.store("/a")
        older = self.copied("older")
        self.store("/b")
        self.place(older)
        self.refused(e.VolumeBehind, "older copy.* Expected: .*2.* Found: .*1")

    def test_an_older_copy_where_a_request_was_refused(self) -> None:
        self.store("/a")
        older = self.copied("older")
        with self.at_way() as client, self.assertRaises(e.Exists):
            client.create("/a", b"")
        self.place(older)
        self.refused(e.VolumeBehind, "older copy")

    # ---- another volume

    def test_another_volume_with_the_same_numbers(self) -> None:
        """One file was stored on each by the same ledger, under the same number and the same commit."""
        self.store("/a")
        first = self.named("first")
        self.place(self.format_as(self.named("second")))
        os.rename(self.named("away"), first)
        self.forget()
        self.store("/b", b"longer")
        self.place(first)
        self.refused(e.OtherVolume, self.other_words())
        self.place(self.named("away"))
        self.assertEqual(self.store("/c"), 2)

    def other_words(self) -> str:
        return "another volume.* Expected: 'DISC', formatted at 1970.* Found: 'DISC', formatted at 1970"

    def forget(self) -> None:
        with self.at_way() as client:
            self.assertEqual(client.forget(), [])

    def test_volumes_with_one_identity(self) -> None:
        """Both formatted at one moment: their commits distinguish them."""
        self.store("/a")
        other = self.format_as(self.named("other"), moment=7)
        self.place(other)
        self.format_as(self.named("same"), moment=7)
        with self.at_way() as client:
            client.forget()
            client.create("/a", b"first", Moment(5))
        self.place(self.named("same"))
        with self.at_way(self.named("second.sqlite"), client=self.number()) as client:
            client.create("/a", b"other", Moment(6))
        self.refused_as_one_identity()

    def number(self) -> int:
        with self.at_way() as client:
            return client.session().ledger.client

    def refused_as_one_identity(self) -> None:
        self.refused(e.CopyWentOn, "a copy that went on by itself, or another volume.* Expected: commit 1 .* Found: commit 1 ")

    def test_another_volume_that_the_ledger_has_elsewhere(self) -> None:
        """It is said which one that is; with more requests it is no other ledger's."""
        elsewhere = self.format_as(self.named("elsewhere.img"))
        with self.on_image(image=elsewhere) as client:
            for name in "abc":
                client.create("/" + name, b"")
        self.store("/z")
        self.place(elsewhere)
        self.refused(e.OtherVolume, f"but the one that it knows at image:{self.named('elsewhere.img')}")

    # ---- an empty volume

    def test_an_empty_volume(self) -> None:
        self.store("/a")
        self.place(self.format_as(self.named("empty")))
        self.refused(*self.empty_words())

    def empty_words(self) -> "tuple[Type[e.LedgerError], str]":
        return e.OtherVolume, self.other_words()

    def test_the_volume_as_it_was_formatted(self) -> None:
        empty = self.copied("empty")
        self.store("/a")
        self.place(empty)
        self.refused(e.EmptyVolume, "an empty volume.* Expected: .*1.* Found: ")
        self.assertIn("empty volume", self.run_command("mkdir", "/d", where=self.where(), status=1))

    def test_where_nothing_was_acknowledged(self) -> None:
        """A volume that was met and got no request may be replaced by any other."""
        with self.at_way() as client:
            self.assertEqual(client.resume(), [])
        self.place(self.format_as(self.named("larger")))
        self.assertEqual(self.store("/a"), 1)
        self.place(self.named("away"))
        self.assertRaises(e.WrongVolume, self.store, "/b")

    # ---- a copy that went on by itself

    def test_a_copy_that_went_on(self) -> None:
        """By a copy of the ledger, so that all numbers and commits are the same."""
        self.store("/a")
        copy, ledger = self.copied("copy"), shutil.copy(self.ledger, self.named("copy.sqlite"))
        self.store("/b")
        self.place(copy)
        self.store("/c", ledger=ledger)
        self.refused(e.CopyWentOn, "went on by itself.* Expected: .* Found: ")

    def test_a_copy_that_went_on_by_another_client(self) -> None:
        """And then by this one: its numbers are the same, and its commits are others."""
        self.store("/a")
        copy, ledger = self.copied("copy"), shutil.copy(self.ledger, self.named("copy.sqlite"))
        self.store("/b")
        self.place(copy)
        self.store("/x", ledger=self.named("other.sqlite"))
        self.store("/b", ledger=ledger)
        self.refused(e.CopyWentOn, "went on by itself.* Expected: .*commit 2.* Found: .*commit")

    # ---- two ledgers with one client

    def test_two_ledgers_with_one_client(self) -> None:
        second = self.named("second.sqlite")
        with self.at_way(client=99) as client:
            client.create("/a", b"")
        with self.at_way(second, client=99) as client:
            self.assertEqual(client.create("/b", b""), 2)
        self.refused(e.NumberUsedElsewhere, "up to 2 of this client, and this ledger sent 1")
        with self.at_way(second) as client:
            self.assertEqual(client.create("/c", b""), 3)

    def test_a_ledger_that_was_put_back(self) -> None:
        self.store("/a")
        older = shutil.copy(self.ledger, self.named("older.sqlite"))
        self.store("/b")
        os.replace(older, self.ledger)
        self.refused(e.NumberUsedElsewhere, "up to 2 of this client, and this ledger sent 1.* old copy")

    # ---- what is the volume

    def test_a_reply_that_the_ledger_did_not_get(self) -> None:
        """A crash between the two is no other volume: the next command takes the reply, and goes on."""
        self.store("/a")
        with self.at_way() as client, mock.patch("udfburn.session.session.Session._keep", self.crash_with_replies()):
            with self.assertRaises(Crash):
                list(client.run(operations(3)))
        with self.at_way() as client:
            self.assertEqual([path for _, path, *_ in client.resume()], ["/f0", "/f1", "/f2"])
            client.create("/z", b"")
        with self.at_way() as client:
            self.assertEqual([name.name for name in client.list("/")], ["a", "f0", "f1", "f2", "z"])

    def crash_with_replies(self) -> object:
        real = Session._keep

        def keep(session: Session, finished: List[InFlightRequest], fresh: Group) -> None:
            if finished:
                raise Crash
            real(session, finished, fresh)

        return keep

    def test_both_ways_to_a_volume(self) -> None:
        """One after the other, again and again: it is one volume of the ledger."""
        for index in range(3):
            with self.on_image(image=self.there) as client:
                client.create(f"/i{index}", b"", Moment(5))
            self.path = self.named(f"socket{index}")
            daemon = self.serve_image(self.there)
            with self.client() as client:
                client.create(f"/s{index}", b"", Moment(5))
                ledger = client.session().ledger
                self.assertEqual([volume.latest for volume in ledger.volumes()], [2 * index + 2])
            daemon.kill()

    def serve_image(self, image: str) -> Daemon:
        daemon = Daemon(image, self.path)
        self.addCleanup(daemon.kill)
        daemon.await_socket()
        return daemon

    def test_what_other_clients_changed(self) -> None:
        self.store("/a")
        with self.at_way(self.named("other.sqlite")) as other:
            other.rename("/a", "/b")
        self.goes_on_after_others()

    def goes_on_after_others(self) -> None:
        """The image shows that the last commit of this ledger is there, and that others came after it."""
        self.assertEqual(self.store("/c"), 3)


class Crash(Exception):
    """The client ends here."""


def operations(count: int) -> List[Operation]:
    return [Operation(Create, (f"f{index}",), Moment(5), b"x") for index in range(count)]


class Images(WithPrograms):
    """What an image alone shows."""

    def test_an_image_under_another_name(self) -> None:
        with self.on_image() as client:
            client.create("/a", b"")
        moved = os.path.join(self.room, "moved.img")
        os.rename(self.image, moved)
        with self.on_image(image=moved) as client:
            client.create("/b", b"")
            (volume,) = client.session().ledger.volumes()
            self.assertEqual((volume.latest, volume.identity and volume.identity.label, len(client.session().ledger.ways(volume))), (2, "TEST", 2))

    def test_the_mark_is_that_of_the_last_commit(self) -> None:
        """By its address and the blocks that it wrote, computed here from the lines of `udfburn log`."""
        with self.on_image() as client:
            client.create("/a", b"x" * 5000)
            client.create("/b", b"")
        (newer, older, *_) = [list(map(int, line.split())) for line in self.udfburn("log", self.image).split(b"\n") if line]
        with self.on_image() as client:
            (volume,) = client.session().ledger.volumes()
        with open(self.image, "rb") as file:
            file.seek((older[1] + 1) * 2048)
            blocks = file.read((newer[1] - older[1]) * 2048)
        self.assertEqual(volume.mark, (2, newer[1], sha256(blocks).digest()))
        self.assertEqual(volume.identity, ("TEST", 0, self.capacity))

    def test_a_name_that_another_file_took(self) -> None:
        """What is looked at is the file that the program has open."""
        connection = ImageConnection(self.image, UDFBURN)
        try:
            see(connection, 7)
            self.assertTrue(os.path.samefile(opened_path(connection, self.image), self.image))
            os.rename(self.image, self.image + ".old")
            self.format(self.capacity)
            with self.assertRaises(Lost):
                opened_path(connection, self.image)
        finally:
            connection.close()

    def test_a_block_that_changed(self) -> None:
        """Of the last commit: nothing is written after it, and the error says where to look."""
        data = os.urandom(5000)
        with self.on_image() as client:
            client.create("/a", data)
        with open(self.image, "r+b") as file:
            at = file.read().index(data) + 3000
            file.seek(at)
            file.write(bytes([data[3000] ^ 1]))
        self.assertEqual(self.udfburn("check", self.image), b"sound 1\n")
        with self.on_image() as client, self.assertRaisesRegex(e.CopyWentOn, "or a block of this commit has changed .*check --data"):
            client.create("/b", b"")
        self.assertIn("/a: has other bytes than were stored", self.run_command("check", "--data", self.image, where=[], status=1))

    def test_an_older_copy_at_a_way_that_is_not_known(self) -> None:
        with self.on_image() as client:
            client.create("/a", b"")
        older = shutil.copy(self.image, os.path.join(self.room, "older.img"))
        with self.on_image() as client:
            client.create("/b", b"")
        with self.on_image(image=older) as client, self.assertRaisesRegex(e.VolumeBehind, "older copy"):
            client.create("/c", b"")


class Sockets(Which):
    """The same over the socket of a daemon, by what the protocol reports."""

    def setUp(self) -> None:
        super().setUp()
        self.there = self.image
        self.daemon = self.serve()

    def place(self, image: str) -> None:
        self.daemon.kill()
        super().place(image)
        self.daemon = self.serve()

    def at_way(self, ledger: Optional[str] = None, shared: bool = False, client: Optional[int] = None) -> Client:
        made = Client(f"unix:{self.path}", client, ledger or self.ledger, UDFBURN, shared=shared)
        self.addCleanup(made.close)
        return made

    def where(self) -> List[str]:
        return ["--socket", self.path]

    def other_words(self) -> str:
        return "another volume.* Expected: /b: a file of 6 bytes, moment 5. Found: /b: nothing"

    def refused_as_one_identity(self) -> None:
        self.refused(e.OtherVolume, "another volume.* Expected: /a: a file of 5 bytes, moment 5. Found: /a: a file of 5 bytes, moment 6")

    def empty_words(self) -> "tuple[Type[e.LedgerError], str]":
        return e.EmptyVolume, "an empty volume in the place of a full one.* Expected: requests up to 1 .* Found: none"

    def test_both_ways_to_a_volume(self) -> None:
        self.daemon.kill()
        super().test_both_ways_to_a_volume()

    def goes_on_after_others(self) -> None:
        """It cannot be distinguished from another volume, so the user says that paths are shared."""
        self.refused(e.OtherVolume, "--shared.* Expected: /a: a file of 4 bytes, moment 5. Found: /a: nothing")
        self.assertEqual([self.store(path, shared=True) for path in ("/c", "/d", "/e", "/f")], [3, 4, 5, 6])
        # Only what the last four requests made is compared.
        self.assertEqual(self.store("/g"), 7)


if __name__ == "__main__":
    unittest.main()
