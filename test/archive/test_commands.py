"""The commands over real volumes: what goes in comes back, is found, closed, checked, and is deleted only when it may be."""

from __future__ import annotations

import os
import re
import sqlite3
import subprocess
import tomllib

from .support import UDFBURN, WithArchive, change_in, digests, environment, make_tree, words_of, write


class Commands(WithArchive):
    def test_a_tree_goes_in_and_comes_back(self) -> None:
        self.init("--capacity", "6000")
        make_tree(self.source, 900, 1)
        write(os.path.join(self.source, "big"), os.urandom(2_500_000))
        self.assertEqual(self.add().last()["files"], 901)
        self.assertGreater(len(self.volumes()), 1)
        self.assertEqual(self.get_all(), digests(self.source))
        again = self.add().last()
        self.assertEqual((again["files"], again["same"]), (0, 901))
        self.require_agreed()
        self.do("close")
        self.require_agreed()
        self.assertEqual(self.do("check", "--data").last()["failures"], [])
        self.assertEqual(self.get_all(), digests(self.source))
        for volume in self.volumes():
            self.assertEqual(volume["state"], "closed")

    def test_many_names_in_one_folder(self) -> None:
        self.init("--nodes", "4096")
        for index in range(1500):
            write(os.path.join(self.source, "many", f"f{index}"), b"%d" % index)
        for index in range(700):
            write(os.path.join(self.source, "folders", f"d{index}", "f"), b"f%d" % index)
        self.add()
        self.assertEqual(self.get_all(), digests(self.source))
        self.assertEqual(len(self.volumes()), 1)
        listed = subprocess.run([UDFBURN, "ls", self.image(1), "/data/s/many"], check=True, capture_output=True).stdout.splitlines()
        self.assertLessEqual(len(listed), 512)
        self.assertIn(b"d =s2", listed)
        self.require_agreed()

    def image(self, number: int) -> str:
        for folder in ("open", "closed"):
            path = os.path.join(self.archive, folder, f"T-{number:06}.img")
            if os.path.exists(path):
                return path
        raise AssertionError(f"no volume {number}")

    def test_odd_names(self) -> None:
        self.init()
        names = [b"=x", b"a%b", b"new\nline", b"\xff\xfe", "\U0001f4f7.jpg".encode(), b"x" * 255, b"..more", "é".encode() * 127, b"-rf"]
        for index, name in enumerate(names):
            for folder in (b"", names[index - 1]):
                at = os.path.join(os.fsencode(self.source), b"f", folder)
                os.makedirs(at, exist_ok=True)
                with open(os.path.join(at, b"plain-" + name[:200] if not folder else name), "wb") as file:
                    file.write(name)
        deep = os.path.join(self.source, *[f"n{index}" for index in range(40)])
        write(os.path.join(deep, "deep"), b"deep")
        self.add()
        self.assertEqual(self.get_all(), digests(self.source))
        self.do("close")
        self.require_agreed()

    def test_a_file_becomes_a_folder_and_back(self) -> None:
        self.init()
        write(os.path.join(self.source, "x"), b"file")
        self.add()
        os.unlink(os.path.join(self.source, "x"))
        write(os.path.join(self.source, "x", "y"), b"below")
        self.add()
        os.unlink(os.path.join(self.source, "x", "y"))
        os.rmdir(os.path.join(self.source, "x"))
        write(os.path.join(self.source, "x"), b"file again")
        self.add()
        self.require_agreed()
        paths = [(line["path"], line["size"]) for line in self.rows()]
        self.assertEqual(paths, [("/s/x", 10), ("/s/x/y", 5)])
        self.assertEqual(len(self.do("history", "/s/x").objects()), 3)

    def test_versions_and_times(self) -> None:
        self.init()
        path = os.path.join(self.source, "f")
        moments = []
        for index in range(3):
            write(path, b"version %d" % index)
            os.utime(path, (1000 + index, 1000 + index))
            self.add()
            moments.append(max(line["added"] for line in self.rows()))
        self.assertEqual(len(set(moments)), 3)
        found = [line["size"] for line in self.do("history", "/s/f").objects()[:-1]]
        self.assertEqual(found, [9, 9, 9])
        for index, moment in enumerate(moments):
            folder = self.path(f"back{index}")
            seconds, micro = divmod(moment, 1_000_000)
            stamp = subprocess.run(["date", "-u", "-d", f"@{seconds}", "+%Y-%m-%dT%H:%M:%S"], check=True, capture_output=True).stdout.decode().strip()
            self.do("get", "/s/f", folder, "--as-of", f"{stamp}.{micro:06}+00:00")
            with open(os.path.join(folder, "f"), "rb") as file:
                self.assertEqual(file.read(), b"version %d" % index)
        self.do("get", "/s/f", self.path("never"), "--as-of", "1999-01-01", status=1)
        self.require_agreed()

    def test_only_what_changed_is_stored(self) -> None:
        self.init()
        make_tree(self.source, 50, 3)
        self.add()
        changed = os.path.join(self.source, "d0", "e0", "file 7.bin")
        status = os.stat(changed)
        # The same size and the same moment: only its bytes show it.
        write(changed, bytes(255 - byte for byte in open(changed, "rb").read()))
        os.utime(changed, ns=(status.st_mtime_ns, status.st_mtime_ns))
        last = self.add().last()
        self.assertEqual((last["files"], last["same"]), (1, 49))
        self.assertEqual(self.get_all(), digests(self.source))

    def test_find_looks_nothing_up(self) -> None:
        """What is printed is side by side, so no hit takes a read of its own: the other tables may as well be missing."""
        self.init()
        paths = [os.path.join(f"d{index}", f"name-{index}.bin") for index in range(100)]
        for path in paths:
            write(os.path.join(self.source, path), b"1")
        self.add()
        base = sqlite3.connect(os.path.join(self.archive, "catalogue.sqlite"))
        for table in ("file", "folder"):
            base.execute(f"DROP TABLE {table}")
        base.commit()
        base.close()
        for pattern in ("name-*", "*.bin", "*me-*"):
            done = subprocess.run([*words_of("find", pattern), "--archive", self.archive], env=environment(), capture_output=True, text=True)
            self.assertEqual((done.returncode, done.stderr), (0, ""), pattern)
            self.assertEqual(sorted(done.stdout.splitlines()), sorted(f"/s/{path}" for path in paths), pattern)

    def test_find_and_where(self) -> None:
        self.init()
        for name in ("a/IMG_1.jpg", "a/IMG_2.png", "ab/IMG_1.jpg", "b/note.txt", "img.jpg"):
            write(os.path.join(self.source, name), name.encode())
        self.add()
        expected = {
            "IMG_1.jpg": ["/s/a/IMG_1.jpg", "/s/ab/IMG_1.jpg"], "*.jpg": ["/s/a/IMG_1.jpg", "/s/ab/IMG_1.jpg", "/s/img.jpg"],
            "IMG*": ["/s/a/IMG_1.jpg", "/s/a/IMG_2.png", "/s/ab/IMG_1.jpg"], "/s/a/*": ["/s/a/IMG_1.jpg", "/s/a/IMG_2.png"],
            "/s/a*": ["/s/a/IMG_1.jpg", "/s/a/IMG_2.png", "/s/ab/IMG_1.jpg"], "*o*": ["/s/b/note.txt"], "?mg.jp[g]": ["/s/img.jpg"],
            "/s/*/*_1*": ["/s/a/IMG_1.jpg", "/s/ab/IMG_1.jpg"], "/s/b/note.txt": ["/s/b/note.txt"], "[in]*t": ["/s/b/note.txt"],
        }
        for pattern, paths in expected.items():
            found = [line["path"] for line in self.do("find", pattern).objects()[:-1]]
            self.assertEqual(sorted(found), paths, pattern)
        for pattern, paths in {"Img*": [*expected["IMG*"], "/s/img.jpg"], "/S/A/*": expected["/s/a/*"], "[N]OTE.*": ["/s/b/note.txt"]}.items():
            found = [line["path"] for line in self.do("find", "-i", pattern).objects()[:-1]]
            self.assertEqual(sorted(found), paths, pattern)
        self.assertEqual(self.do("find", "nothing", status=1).last()["files"], 0)
        (where,) = self.do("where", "/s/b/note.txt").objects()[:-1]
        self.assertEqual((where["volume"], where["state"]), ("T-000001", "open"))
        self.do("where", "/s/b", status=1)

    def test_a_folder_is_listed(self) -> None:
        self.init()
        for name in ("a/x/y/1", "a b/2", "a-b/3", "a.b/c/4", "a0/5", "b/6", "c", "é/7", "a/z"):
            write(os.path.join(self.source, name), b"")
        self.add()

        def listed(path: str) -> "list[str]":
            return [line["path"] for line in self.do("ls", path).objects()[:-1]]

        self.assertEqual(listed("/"), ["/s"])
        self.assertEqual(listed("/s"), ["/s/a", "/s/a b", "/s/a-b", "/s/a.b", "/s/a0", "/s/b", "/s/é", "/s/c"])
        self.assertEqual(listed("/s/a"), ["/s/a/x", "/s/a/z"])
        self.assertEqual(listed("/s/c"), ["/s/c"])
        self.do("ls", "/s/none", status=1)

    def test_volumes_that_are_away(self) -> None:
        self.init("--capacity", "4000")
        for index in range(3):
            write(os.path.join(self.source, f"big{index}"), os.urandom(3_000_000))
        self.add()
        self.do("close")
        gone = self.image(2)
        os.rename(gone, gone + ".away")
        done = self.do("get", "/s", self.path("back"), status=1)
        self.assertEqual(done.last()["lacking"], ["T-000002"])
        self.assertEqual(done.last()["files"], 2)
        self.assertEqual({line["volume"]: line["state"] for line in self.volumes()}["T-000002"], "away")
        # A volume that is away is not lost: its files are not stored again.
        self.assertEqual(self.add().last()["files"], 0)

    def test_progress_on_a_terminal(self) -> None:
        remote = self.path("remote")
        os.mkdir(remote)
        self.init("--copies", remote)
        make_tree(self.source, 20, 2)
        expected = {
            ("add", self.source): r"stored: 1 file, [0-9]+", ("close",): "closing T-000001.*copying T-000001 to .*remote", ("check", "--remotes"): "reading T-000001.*reading T-000001 on",
            ("rebuild",): "read 1 volume, 20 files", ("get", "/", self.path("back")): r"[0-9]+%.*(<[0-9?:]+.* 1 of 20 files| 1 of 20 files.*[0-9]+:[0-9]{2} left)",
        }
        for words, shown in expected.items():
            ours, theirs = os.openpty()
            done = subprocess.run([*words_of(*words), "--archive", self.archive], env=environment(), stdout=subprocess.DEVNULL, stderr=theirs, check=False)
            os.close(theirs)
            text = os.read(ours, 100_000).decode()
            os.close(ours)
            self.assertEqual(done.returncode, 0, text)
            self.assertRegex(text, re.compile(shown, re.S))

    def test_bad_words(self) -> None:
        self.do("ls", status=1)
        self.do("init", self.source + "/x", "--label", "A" * 24, status=1)
        for capacity, why in (("511", "a volume has 512 to 450,000"), ("450001", "a volume has 512 to 450,000"), ("many", "'many'")):
            self.assertIn(why, self.do("init", self.source + "/x", "--capacity", capacity, status=2).errors)
        write(os.path.join(self.source, "f"), b"")
        self.do("init", self.source, status=1)
        self.init()
        self.do("init", self.archive, status=1)
        self.do("add", self.source, self.source, status=2)
        self.do("add", self.path("nowhere"), status=1)
        self.do("get", "/s/none", self.path("back"), status=1)
        self.do("get", "/", self.path("back"), "--as-of", "yesterday", status=2)
        with open(os.path.join(self.archive, "archive.toml"), "rb") as file:
            self.assertEqual(tomllib.load(file)["label"], "T")

    def test_another_program_s_things_are_left_alone(self) -> None:
        self.init()
        write(os.path.join(self.source, "f"), b"1")
        self.add()
        base = sqlite3.connect(os.path.join(self.archive, "catalogue.sqlite"))
        own = base.execute("SELECT version FROM archive").fetchone()
        base.execute("UPDATE archive SET version = 99")
        base.commit()
        for command in (["status"], ["add", self.source], ["rebuild"], ["close"]):
            done = self.do(*command, status=1)
            self.assertIn("version 99", done.errors)
        base.execute("UPDATE archive SET version = ?", own)
        base.commit()
        other = self.path("other.img")
        subprocess.run([UDFBURN, "format", other, "T-000001", "0", "1000"], check=True, stdout=subprocess.DEVNULL)
        os.rename(self.image(1), self.path("kept"))
        os.rename(other, self.image_path(1))
        before = open(self.image_path(1), "rb").read()
        write(os.path.join(self.source, "g"), b"2")
        self.add(status=1)
        self.assertEqual(open(self.image_path(1), "rb").read(), before)
        os.rename(self.path("kept"), self.image_path(1))
        self.add()
        self.require_agreed()

    def image_path(self, number: int) -> str:
        return os.path.join(self.archive, "open", f"T-{number:06}.img")

    def test_an_older_copy_is_refused(self) -> None:
        self.init()
        write(os.path.join(self.source, "f"), b"1")
        self.add()
        with open(self.image_path(1), "rb") as file:
            older = file.read()
        write(os.path.join(self.source, "g"), b"2")
        self.add()
        newer = open(self.image_path(1), "rb").read()
        write(self.image_path(1), older)
        write(os.path.join(self.source, "h"), b"3")
        self.add(status=1)
        self.assertEqual(open(self.image_path(1), "rb").read(), older)
        write(self.image_path(1), newer)
        self.add()
        self.assertEqual(self.get_all(), digests(self.source))

    def test_what_cannot_be_stored_is_named(self) -> None:
        self.init()
        write(os.path.join(self.source, "f"), b"1")
        os.symlink("f", os.path.join(self.source, "link"))
        os.mkfifo(os.path.join(self.source, "pipe"))
        os.mkdir(os.path.join(self.source, "empty"))
        done = self.add(status=1)
        self.assertEqual((done.last()["files"], done.last()["empty"], len(done.last()["failures"])), (1, 1, 2))
        self.add("--skip-odd")
        # A capacity that is too small for a mebibyte is said.
        small = self.path("small")
        self.init("--capacity", "512", archive=small)
        write(os.path.join(self.source, "big"), os.urandom(2_000_000))
        done = self.run_in(small, "add", self.source, "--skip-odd", status=1)
        self.assertIn("does not fit", done.errors)
        self.assertEqual(done.last()["files"], 1)

    def test_files_that_fit_on_no_volume_open_none(self) -> None:
        self.init("--capacity", "1200", "--delete", "acknowledged")
        for index in range(6):
            write(os.path.join(self.source, f"large {index}"), os.urandom(1 << 20))
        write(os.path.join(self.source, "small"), b"small")
        for _ in range(2):
            failures = self.add(status=1).last()["failures"]
            self.assertEqual(len([line for line in failures if "does not fit on an empty volume" in line]), 6)
            self.assertEqual([volume["files"] for volume in self.volumes()], [1])

    def test_what_was_copied_before_is_not_copied_again(self) -> None:
        self.init()
        names = ["empty", "large", "other", "shorter", "small"]
        for name, size in zip(names, (0, 2_500_000, 3000, 4000, 5000)):
            write(os.path.join(self.source, name), os.urandom(size))
        self.add()
        out = self.path("out")
        self.do("get", "/s", out)
        self.do("close")
        image, away = self.image(1), self.path("away")
        os.rename(image, away)
        # All of it is there, so no volume is needed.
        last = self.do("get", "/s", out).last()
        self.assertEqual([last[name] for name in ("files", "same", "failures", "lacking")], [0, 5, [], []])
        os.rename(away, image)
        write(os.path.join(out, "s", "other"), bytes(3000))
        write(os.path.join(out, "s", "shorter"), bytes(3999))
        os.unlink(os.path.join(out, "s", "small"))
        done = self.do("get", "/s", out, status=1)
        self.assertEqual([done.last()[name] for name in ("files", "same")], [1, 2])
        self.assertEqual([line.split(":")[0] for line in done.last()["failures"]], ["/s/other", "/s/shorter"])
        self.assertEqual(self.do("get", "/s", out, "--force").last()["files"], 5)
        self.assertEqual(digests(os.path.join(out, "s")), digests(self.source))

    def test_two_paths_that_would_be_one_file(self) -> None:
        """Neither takes the place of the other, even if existing files are replaced."""
        self.init()
        for folder in ("x", "y"):
            write(os.path.join(self.source, folder, "same"), folder.encode())
        self.add()
        out = self.path("out")
        for words in ((), ("--force",)):
            done = self.do("get", "/s/x/same", "/s/y/same", out, *words, status=1)
            self.assertIn("two of the files would have this path", done.errors)
            self.assertFalse(os.path.exists(out))
        self.assertEqual(self.do("get", "/s/x/same", "/s/x/same", out).last()["files"], 1)


class Deleting(WithArchive):
    def test_acknowledged(self) -> None:
        self.init()
        make_tree(self.source, 60, 5)
        write(os.path.join(self.source, "big"), os.urandom(1_500_000))
        before = digests(self.source)
        self.assertEqual(self.add("--delete-source").last()["deleted"], 61)
        self.assertEqual(digests(self.source), {})
        self.assertEqual(self.get_all(), before)

    def test_same_files_only_where_the_volume_shows_them(self) -> None:
        self.init()
        make_tree(self.source, 20, 6)
        # Longer than what is inside an entry, so that its data has no checksum on the medium.
        write(os.path.join(self.source, "d0", "e0", "file 3.bin"), os.urandom(5000))
        before = digests(self.source)
        self.add()
        image = os.path.join(self.archive, "open", "T-000001.img")
        os.rename(image, image + ".away")
        last = self.add("--delete-source").last()
        self.assertEqual((last["deleted"], last["kept"]), (0, 20))
        self.assertEqual(digests(self.source), before)
        os.rename(image + ".away", image)
        # A byte of one file's data is changed: that source stays.
        with open(os.path.join(self.source, "d0", "e0", "file 3.bin"), "rb") as file:
            change_in(image, file.read())
        last = self.add("--delete-source").last()
        self.assertEqual((last["deleted"], last["kept"]), (19, 1))
        self.assertEqual(list(digests(self.source)), [b"d0/e0/file 3.bin"])

    def test_copied(self) -> None:
        remotes = [self.path("r1"), self.path("r2")]
        for remote in remotes:
            os.mkdir(remote)
        self.init("--copies", *remotes)
        make_tree(self.source, 30, 7)
        before = digests(self.source)
        self.assertEqual(self.add("--delete-source", "--no-copy").last()["deleted"], 0)
        os.rename(remotes[1], remotes[1] + ".gone")
        self.do("close", status=1)
        last = self.add("--delete-source").last()
        self.assertEqual((last["deleted"], last["kept"]), (0, 30))
        self.assertEqual(digests(self.source), before)
        os.rename(remotes[1] + ".gone", remotes[1])
        self.do("close")
        self.assertEqual(self.add("--delete-source").last()["deleted"], 30)
        self.assertEqual(self.get_all(), before)


class Streams(WithArchive):
    """Standard streams that are closed or full, or do not have all letters."""

    def setUp(self) -> None:
        super().setUp()
        self.init("--delete", "acknowledged")
        make_tree(self.source, 10, 1)
        write(os.path.join(self.source, "\u00e9\u65e5"), b"a name that is not ASCII")

    def command(self, shell: str, *words: str, **variables: str) -> "subprocess.CompletedProcess[str]":
        """Runs a command by a line of the shell, in which `"$@"` stands for it."""
        line = ["sh", "-c", shell, "sh", *words_of(*words)]
        return subprocess.run(line, env={**environment(), **variables}, stdout=subprocess.PIPE, stderr=subprocess.PIPE, text=True, check=False)

    def test_names_that_the_output_does_not_have(self) -> None:
        done = self.command('exec "$@"', "add", self.source, "--at", "/s", "--archive", self.archive, "--delete-source", PYTHONIOENCODING="ascii")
        self.assertEqual((done.returncode, done.stderr), (0, ""))
        self.assertIn("stored /s/\\xe9\\u65e5 T-000001\n", done.stdout)
        self.assertEqual(digests(self.source), {})

    def test_names_that_are_not_read_as_utf8(self) -> None:
        """They would be kept as other names, so nothing is done."""
        words = ("add", self.source, "--archive", self.archive)
        done = self.command('exec "$@"', *words, LC_ALL="C", PYTHONUTF8="0", PYTHONCOERCECLOCALE="0")
        self.assertEqual((done.returncode, self.rows()), (2, []))
        self.assertIn("set PYTHONUTF8=1", done.stderr)

    def test_a_closed_standard_error(self) -> None:
        before = digests(self.source)
        done = self.command('exec "$@" 2>&-', "add", self.source, "--at", "/s", "--archive", self.archive)
        self.assertEqual((done.returncode, done.stdout.splitlines()[-1][:16]), (0, "stored 11 files,"))
        done = self.command('exec "$@" 2>&-', "ls", "/nowhere", "--archive", self.archive)
        self.assertEqual((done.returncode, done.stdout), (1, ""))
        self.assertEqual(self.get_all(), before)

    def test_a_standard_output_that_is_closed_or_full(self) -> None:
        for words in (("status", "--archive", self.archive), ("--help",)):
            full, closed = (self.command(f'exec "$@" {where}', *words) for where in (">/dev/full", ">&-"))
            self.assertEqual((full.returncode, full.stderr), (1, "udfburn-archive: the standard output takes no more: No space left on device\n"))
            self.assertEqual((closed.returncode, closed.stderr.split(",")[0].rstrip()), (1, "udfburn-archive: the standard output is closed"))
