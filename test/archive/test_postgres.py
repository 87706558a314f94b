"""Several machines on one catalogue: real servers of PostgreSQL, processes and servers that are killed, a standby that is promoted."""

from __future__ import annotations

import os
import random
import shutil
import signal
import subprocess
import sys
import time
from typing import Dict, Optional

from .servers import Server
from .support import LARGE, WithArchive, change, digests, environment, kill, make_tree, standing_still, start, state_of, wait_until, write

MACHINES = 4
KILLS = 100 if LARGE else 12
SERVER_KILLS = 10 if LARGE else 2
FULL_LIST = 512
"""Files after which the catalogue has some of them, where a run stores more."""


STOPS_BEFORE_THE_END = """
import os, signal, sys
from udfburn.archive.close import Closer
end = Closer._end
def ended(*words):
    os.kill(os.getpid(), signal.SIGSTOP)
    end(*words)
Closer._end = ended
from udfburn.archive.cli import main
sys.exit(main(sys.argv[1:]))
"""
"""Runs the command, and stops it before it ends an image."""


class OnServer(WithArchive):
    """Machines with an archive's folder each, on one server."""

    def setUp(self) -> None:
        super().setUp()
        self.server = Server(self)
        self.url = self.server.new_base("archive")

    def machine(self, index: int, url: str = "") -> str:
        """The archive's folder of a machine."""
        folder = self.path(f"machine{index}")
        self.init("--catalogue", url or self.url, archive=folder)
        return folder


class Machines(OnServer):
    def test_one_path_is_one_machine_s(self) -> None:
        first, second = self.machine(1), self.machine(2)
        make_tree(self.source, 700, 1)
        # It stands still, and has its claims all the same.
        with standing_still(100, self.source, "--at", "/s/a", "--archive", first) as process:
            for at in ("/s/a", "/s/a/b", "/s", ""):
                done = self.run_in(second, "add", self.source, "--at", at, status=1)
                self.assertIn("another process", done.errors, at)
            # Beside it there is room for another.
            self.run_in(second, "add", self.source, "--at", "/t/a")
        self.assertEqual(process.wait(), 0)
        holders = {volume["volume"]: volume["holder"] for volume in self.volumes(first)}
        self.assertEqual(len(set(holders.values())), 2)

    def test_claims_die_with_the_process(self) -> None:
        first, second = self.machine(1), self.machine(2)
        make_tree(self.source, 1300, 2)
        process = start("add", self.source, "--at", "/s", "--archive", first)
        self.server.await_row("SELECT 1 FROM file", "archive")
        kill(process)
        done = self.run_in(second, "add", self.source, "--at", "/s")
        self.assertEqual(done.last()["files"] + done.last()["same"], 1300)
        # The first machine never comes back: its volume is taken over.
        label = next(volume["volume"] for volume in self.volumes(first) if volume["at_hand"])
        self.run_in(second, "adopt", label)
        self.require_agreed(second)
        self.assertEqual(self.get_all(second), digests(self.source))
        shutil.rmtree(first)
        self.run_in(second, "close")
        self.assertEqual(self.run_in(second, "check", "--data").last()["failures"], [])
        self.assertEqual(self.run_in(second, "add", self.source, "--at", "/s").last()["files"], 0)

    def test_an_old_holder_writes_no_more(self) -> None:
        first, second = self.machine(1), self.machine(2)
        write(os.path.join(self.source, "f"), b"1")
        self.run_in(first, "add", self.source, "--at", "/s")
        self.run_in(second, "adopt", "T-000001")
        image = os.path.join(first, "open", "T-000001.img")
        before = open(image, "rb").read()
        write(os.path.join(self.source, "g"), b"2")
        self.run_in(first, "add", self.source, "--at", "/s")
        self.assertEqual(open(image, "rb").read(), before)
        self.require_agreed(first)
        self.require_agreed(second)

    def test_an_old_holder_closes_nothing(self) -> None:
        first, second = self.machine(1), self.machine(2)
        write(os.path.join(self.source, "f"), b"1")
        self.run_in(first, "add", self.source, "--at", "/s")
        self.run_in(second, "adopt", "T-000001")
        done = self.run_in(first, "close", "T-000001", status=1)
        self.assertIn(f"belongs to {os.uname().nodename}:{second}", done.errors)
        self.run_in(second, "close")
        self.assertEqual(self.run_in(second, "check", "--data").last()["failures"], [])

    def test_an_old_holder_rebuilds_no_older_copy(self) -> None:
        first, second = self.machine(1), self.machine(2)
        write(os.path.join(self.source, "f"), b"1")
        self.run_in(first, "add", self.source, "--at", "/s")
        self.run_in(second, "adopt", "T-000001")
        write(os.path.join(self.source, "g"), b"2")
        self.run_in(second, "add", self.source, "--at", "/s")
        before = self.rows(second)
        for command, state in (("status", "open"), ("close", "closed")):
            self.run_in(second, command)
            self.assertIn("is an older copy of T-000001", self.run_in(first, "rebuild", status=1).errors)
            self.assertEqual(self.rows(second), before)
            self.assertEqual([volume["state"] for volume in self.volumes(second)], [state])

    def test_an_old_holder_rebuilds_nothing_else(self) -> None:
        """Its image has more commits than that of the folder that took a copy over, and filled it otherwise."""
        first, second = self.machine(1), self.machine(2)
        os.mkdir(self.path("copies"))
        for machine in (first, second):
            self.run_in(machine, "remote", "add", self.path("copies"), "--same-device")
        for name in "fgh":
            write(os.path.join(self.source, name), name.encode())
            self.run_in(first, "add", self.source, "--at", "/s", *(["--no-copy"] if name != "f" else []))
        os.rename(first, self.path("away"))
        self.run_in(second, "adopt", "T-000001", status=1)
        os.rename(self.path("away"), first)
        write(self.path("other", "i"), b"4")
        self.run_in(second, "add", self.path("other"), "--at", "/t")
        before = self.rows(second)
        self.assertEqual([row["path"] for row in before], ["/s/f", "/t/i"])
        self.assertIn("is not T-000001 as another folder of the archive has it", self.run_in(first, "rebuild", status=1).errors)
        self.assertEqual(self.rows(second), before)
        self.assertEqual(self.run_in(second, "add", self.path("other"), "--at", "/t").last()["same"], 1)

    def test_a_number_that_was_given_twice(self) -> None:
        """By a catalogue from a backup. The volume that it does not know takes no place of the other, though it is closed."""
        first, second = self.machine(1), self.machine(2)
        write(os.path.join(self.source, "f"), b"1")
        self.run_in(first, "add", self.source, "--at", "/s")
        self.run_in(first, "close")
        for statement in ("DELETE FROM file", "DELETE FROM volume", "UPDATE archive SET next_volume = 1"):
            self.server.sql(statement, "archive")
        write(self.path("other", "i"), b"4")
        self.run_in(second, "add", self.path("other"), "--at", "/t")
        before = self.rows(second)
        self.assertIn("is not T-000001 as another folder of the archive has it", self.run_in(first, "rebuild", status=1).errors)
        self.assertEqual(self.rows(second), before)
        self.assertEqual(self.run_in(second, "add", self.path("other"), "--at", "/t").last()["same"], 1)

    def test_an_open_image_that_is_named_stays_open(self) -> None:
        first, second = self.machine(1), self.machine(2)
        write(os.path.join(self.source, "f"), b"1")
        self.run_in(first, "add", self.source, "--at", "/s")
        self.run_in(second, "rebuild", os.path.join(first, "open"))
        self.assertEqual([volume["state"] for volume in self.volumes(first)], ["open"])
        self.assertEqual(self.run_in(first, "close").last()["closed"], 1)
        self.assertEqual(self.run_in(first, "check", "--data").last()["failures"], [])

    def test_another_isolation_of_transactions(self) -> None:
        first = self.machine(1)
        for index, level in enumerate(("repeatable read", "serializable")):
            self.server.sql(f"ALTER DATABASE archive SET default_transaction_isolation = '{level}'")
            write(os.path.join(self.source, f"f{index}"), b"%d" % index)
            self.assertEqual(self.run_in(first, "add", self.source, "--at", "/s").last()["files"], 1)
        self.assertEqual(len(self.volumes(first)), 1)

    def test_a_volume_in_use_is_not_adopted(self) -> None:
        first, second = self.machine(1), self.machine(2)
        make_tree(self.source, FULL_LIST + 200, 3)
        with standing_still(FULL_LIST + 100, self.source, "--at", "/s", "--archive", first) as process:
            self.assertTrue(self.server.sql("SELECT 1 FROM file", "archive"))
            done = self.run_in(second, "adopt", "T-000001", status=1)
            self.assertIn("another process", done.errors)
        self.assertEqual(process.wait(), 0)

    def test_lost_claims_end_a_run(self) -> None:
        first = self.machine(1)
        make_tree(self.source, FULL_LIST + 400, 5)
        before = digests(self.source)
        with standing_still(FULL_LIST + 100, self.source, "--at", "/s", "--archive", first, "--delete-source") as process:
            self.server.sql("SELECT pg_terminate_backend(pid) FROM pg_stat_activity WHERE datname = 'archive' AND state = 'idle in transaction'")
            kept = self.server.sql("SELECT id FROM file ORDER BY id", "archive")
            self.assertTrue(kept)
        self.assertEqual(process.wait(), 1)
        # Not one row came after the claims were lost.
        self.assertEqual(self.server.sql("SELECT id FROM file ORDER BY id", "archive"), kept)
        self.run_in(first, "add", self.source, "--at", "/s", "--delete-source")
        self.assertEqual(self.get_all(first), before)
        self.require_agreed(first)

    def test_lost_claims_close_nothing(self) -> None:
        """Another folder has taken the volume over meanwhile."""
        first, second = self.machine(1), self.machine(2)
        write(os.path.join(self.source, "f"), b"1")
        self.run_in(first, "add", self.source, "--at", "/s")
        words = [sys.executable, "-c", STOPS_BEFORE_THE_END, "close", "--archive", first]
        process = subprocess.Popen(words, env=environment(), stdout=subprocess.DEVNULL, stderr=subprocess.DEVNULL, start_new_session=True)
        self.addCleanup(kill, process)
        wait_until(lambda: process.poll() is not None or state_of(process.pid) == "T")
        self.server.sql("SELECT pg_terminate_backend(pid) FROM pg_stat_activity WHERE datname = 'archive' AND state = 'idle in transaction'")
        self.run_in(second, "adopt", "T-000001", os.path.join(first, "open", "T-000001.img"))
        kept = self.server.sql("SELECT state, holder FROM volume", "archive")
        process.send_signal(signal.SIGCONT)
        self.assertEqual(process.wait(), 1)
        self.assertEqual(self.server.sql("SELECT state, holder FROM volume", "archive"), kept)
        self.run_in(second, "close")
        self.run_in(second, "check", "--data")

    def test_damage_of_another_folder_s_image(self) -> None:
        """A good copy in this folder says nothing of it."""
        first, second = self.machine(1), self.machine(2)
        os.mkdir(self.path("copies"))
        for machine in (first, second):
            self.run_in(machine, "remote", "add", self.path("copies"), "--same-device")
        write(os.path.join(self.source, "f"), os.urandom(5000))
        self.run_in(first, "add", self.source, "--at", "/s")
        self.run_in(first, "close")
        change(os.path.join(first, "closed", "T-000001.img"), 600_000)
        self.run_in(first, "check", status=1)
        self.assertEqual(self.run_in(second, "repair").last()["repaired"], 0)
        self.assertIn("'repair T-000001' there", self.run_in(second, "repair", "T-000001", status=1).errors)
        self.run_in(second, "check")
        self.assertTrue(self.volumes(first)[0]["attention"])
        self.run_in(first, "repair")
        self.assertFalse(self.volumes(first)[0]["attention"])
        self.run_in(first, "check", "--data")

    def test_what_a_killed_machine_left_is_not_there_twice(self) -> None:
        first, second = self.machine(1), self.machine(2)
        make_tree(self.source, 40, 8)
        write(os.path.join(self.source, "big"), os.urandom(2_500_000))
        self.run_in(first, "add", self.source, "--at", "/s")
        # As where the first machine was killed before the catalogue had its last files.
        (middle,) = self.server.sql("SELECT id FROM file ORDER BY id LIMIT 1 OFFSET 20", "archive")[0]
        self.server.sql(f"DELETE FROM file WHERE id > {middle}", "archive")
        self.server.sql(f"UPDATE volume SET last_commit = {middle % (1 << 18)}", "archive")
        self.run_in(second, "add", self.source, "--at", "/s")
        other = os.path.join(self.room, "other")
        write(os.path.join(other, "x"), b"1")
        self.run_in(first, "add", other, "--at", "/other")
        for archive in (first, second):
            self.require_agreed(archive)
        rows = self.server.sql("SELECT folder.path || '/' || name, count(*) FROM file JOIN folder ON folder.id = folder GROUP BY 1", "archive")
        self.assertEqual(len(rows), 42)
        self.assertEqual({count for _, count in rows}, {1})
        self.run_in(second, "adopt", "T-000001")
        self.assertEqual(self.get_all(second), digests(self.source))

    def test_a_newer_catalogue_is_refused(self) -> None:
        first = self.machine(1)
        self.server.sql("UPDATE archive SET version = 99", "archive")
        self.assertIn("version 99", self.run_in(first, "status", status=1).errors)

    def test_a_base_of_another_program_is_left_alone(self) -> None:
        url = self.server.new_base("other")
        self.server.sql("CREATE TABLE file (x INTEGER)", "other")
        done = self.do("init", self.path("x"), "--label", "T", "--catalogue", url, status=1)
        self.assertIn("another program", done.errors)
        self.assertEqual(self.server.sql("SELECT count(*) FROM file", "other"), [(0,)])

    def test_a_server_that_is_gone_is_said(self) -> None:
        first = self.machine(1)
        self.server.kill()
        done = self.run_in(first, "add", self.source, status=1)
        self.assertIn("cannot be reached", done.errors)

    def test_a_lost_catalogue_is_made_again(self) -> None:
        machines = [self.machine(index) for index in range(2)]
        for index, machine in enumerate(machines):
            make_tree(os.path.join(self.source, str(index)), 60, index)
            self.run_in(machine, "add", os.path.join(self.source, str(index)), "--at", f"/s/{index}")
        before = self.rows(machines[0])
        self.server.sql("DROP DATABASE archive")
        self.server.new_base("archive")
        for machine in machines:
            self.run_in(machine, "rebuild")
        self.assertEqual(self.rows(machines[0]), before)


class Killed(OnServer):
    """Four machines on one catalogue, killed at random; the server too."""

    def setUp(self) -> None:
        super().setUp()
        self.sources: Dict[str, str] = {}
        for index in range(MACHINES):
            source = os.path.join(self.source, str(index))
            make_tree(source, 1500 if LARGE else 260, 100 + index)
            write(os.path.join(source, "big"), random.Random(index).randbytes(3_300_000))
            self.sources[self.machine(index)] = source

    def begin(self, machine: str) -> "object":
        source = self.sources[machine]
        return start("add", source, "--at", f"/s/{os.path.basename(source)}", "--archive", machine)

    def finish(self) -> None:
        """Each machine's command again does the rest, and then all is there once."""
        for machine, source in self.sources.items():
            self.run_in(machine, "add", source, "--at", f"/s/{os.path.basename(source)}")
        first = next(iter(self.sources))
        whole = {os.fsencode(self.relative(path)): found[0] for path, found in digests(self.source).items()}
        rows = self.rows(first)
        self.assertEqual(len(rows), len(whole))
        self.assertEqual({os.fsencode(row["path"]): row["sha256"] for row in rows}, whole)
        for machine in self.sources:
            self.require_agreed(machine)
        self.require_once(whole)
        for machine in self.sources:
            self.run_in(machine, "close")
            self.assertEqual(self.run_in(machine, "check", "--data").last()["failures"], [])
            self.require_agreed(machine)

    def relative(self, path: bytes) -> str:
        return "/s/" + os.fsdecode(path)

    def require_once(self, whole: Dict[bytes, str]) -> None:
        """No two volumes have one file: the catalogue has a row for each file of the volumes that `rebuild` agreed with."""
        rows = self.server_rows()
        self.assertEqual((len(rows), {parts for _, parts in rows}), (len(whole), {None}))

    def server_rows(self) -> "list[tuple[str, Optional[int]]]":
        return self.server.sql("SELECT folder.path || '/' || name, part_count FROM file JOIN folder ON folder.id = folder", "archive")

    def test_processes_are_killed(self) -> None:
        chance = random.Random(46)
        processes: Dict[str, object] = {}
        for _ in range(KILLS):
            for machine in self.sources:
                if processes.get(machine) is None or processes[machine].poll() is not None:  # type: ignore[attr-defined]
                    processes[machine] = self.begin(machine)
            time.sleep(chance.uniform(0.15, 1.2))
            victim = chance.choice(list(self.sources))
            kill(processes[victim])  # type: ignore[arg-type]
        for process in processes.values():
            process.wait()  # type: ignore[attr-defined]
        self.finish()

    def test_the_server_is_killed(self) -> None:
        chance = random.Random(47)
        for _ in range(SERVER_KILLS):
            processes = [self.begin(machine) for machine in self.sources]
            time.sleep(chance.uniform(0.6, 2.0))
            self.server.kill()
            for process in processes:
                process.wait()  # type: ignore[attr-defined]
            self.server.start()
        self.finish()


class Standby(WithArchive):
    def test_the_standby_is_promoted(self) -> None:
        primary = Server(self)
        primary.new_base("archive")
        standby = primary.replicate(self)
        url = primary.url("archive", standby)
        machines = {self.path(f"machine{index}"): os.path.join(self.source, str(index)) for index in range(MACHINES if LARGE else 2)}
        for index, (machine, source) in enumerate(machines.items()):
            self.init("--catalogue", url, archive=machine)
            make_tree(source, 1500 if LARGE else 800, 9 + index)
        words = {machine: ("add", source, "--at", f"/s/{os.path.basename(source)}") for machine, source in machines.items()}
        processes = [start(*words[machine], "--archive", machine) for machine in machines]
        primary.await_row("SELECT 1 FROM file", "archive")
        acknowledged = {row[0] for row in primary.sql("SELECT id FROM file", "archive")}
        primary.kill()
        for process in processes:
            process.wait()
        standby.promote()
        wait_until(lambda: standby.sql("SELECT pg_is_in_recovery()") == [(False,)])
        there = {row[0] for row in standby.sql("SELECT id FROM file", "archive")}
        self.assertLessEqual(acknowledged, there)
        for machine, source in machines.items():
            last = self.run_in(machine, *words[machine]).last()
            self.assertEqual(last["files"] + last["same"], 1500 if LARGE else 800)
        found = {row["path"]: row["sha256"] for row in self.rows(next(iter(machines)))}
        self.assertEqual(found, {"/s/" + os.fsdecode(path): whole for path, (whole, _) in digests(self.source).items()})
        for machine in machines:
            self.require_agreed(machine)
            self.run_in(machine, "close")
            self.assertEqual(self.run_in(machine, "check", "--data").last()["failures"], [])
