"""The command line over the plain volume."""

from __future__ import annotations

import json
import os
import unittest
from contextlib import redirect_stderr, redirect_stdout
from io import StringIO
from typing import List
from unittest import mock

from udfburn import Client
from udfburn.base import errors as e
from udfburn.commands import cli
from udfburn.commands.arguments import patience_of
from udfburn import protocol as p
from udfburn.archive.tell import Tell
from udfburn.base.progress import Progress
from udfburn.protocol import escaped
from udfburn.trees.tree import ImportOptions, Importer

from .programs import PATIENCE
from .server import request_of
from .with_files import Local


class Commands(Local):
    def words(self, *words: str, status: int = 0) -> List[str]:
        output = StringIO()
        ledger = ["--ledger", self.ledger] if words[0] in ("put", "mkdir", "mv", "rm", "resume") else []
        with redirect_stdout(output), redirect_stderr(output):
            found = cli.main([words[0], "--socket", self.server.path, "--wait", str(PATIENCE), *ledger, *words[1:]])
        self.assertEqual(found, status, output.getvalue())
        return output.getvalue().splitlines()

    def gives_up(self, *words: str) -> List[str]:
        """A command that soon gives up, however long each answer takes."""
        with mock.patch("udfburn.commands.common.patience_of", lambda _: {"patience": 0.1, "timeout": PATIENCE}):
            return self.words(*words, status=1)

    def test_one_byte(self) -> None:
        self.assertEqual(self.words("put", self.write("a", b"1"), "/a"), ["stored /a (1 byte)", "stored 1 file, 1 B"])

    def test_a_walk(self) -> None:
        local = self.write("a.txt", b"hello")
        os.utime(local, (1_700_000_000, 1_700_000_000))
        self.assertEqual(self.words("mkdir", "-p", "/x/y"), ["made /x", "made /x/y"])
        self.assertEqual(self.words("put", local, "/x/y/"), ["stored /x/y/a.txt (5 bytes)", "stored 1 file, 5 B"])
        self.assertEqual(self.words("ls", "/x/y"), ["f a.txt"])
        self.assertEqual(self.words("ls", "-l", "/x/y"), ["f         5 2023-11-14T22:13:20Z a.txt"])
        self.assertEqual(self.words("ls", "-R", "/"), ["/:", "d x", "/x:", "d y", "/x/y:", "f a.txt"])
        self.assertEqual(
            [json.loads(line) for line in self.words("ls", "--json", "/x/y")],
            [{"path": "/x/y/a.txt", "kind": "file", "size": 5, "moment": 1_700_000_000_000_000}, {"did": "ls", "failures": [], "status": 0}],
        )
        self.assertEqual(self.words("mv", "/x/y/a.txt", "/x/"), ["moved /x/y/a.txt to /x/a.txt"])
        self.assertEqual(self.words("verify", local, "/x/a.txt"), ["1 file, 5 B: all are there"])
        self.assertEqual(self.words("verify", local, "/x/y", status=1)[-1], "0 files, 0 B: 1 difference")
        self.assertEqual(self.words("rm", "/x", status=1), ["udfburn-client: /x: is a directory with names (rm -r removes them too)"])
        self.assertEqual(self.words("rm", "-r", "--dry-run", "/x"), ["would remove /x/y", "would remove /x/a.txt", "would remove /x"])
        self.assertEqual(self.words("rm", "-r", "--quiet", "/x"), [])
        self.assertEqual(self.words("resume"), ["0 requests were pending"])
        self.assertEqual(sorted(self.volume.nodes), [()])

    def test_what_the_system_refuses(self) -> None:
        """The path comes first, as in other messages, and no number of an error."""
        self.words("put", self.write("a", b"1"), "/a")
        missing = os.path.join(self.room, "no", "such\nfolder")
        line = f"{escaped(missing)}: No such file or directory"
        self.assertEqual(self.words("get", "/a", os.path.join(missing, "a"), status=1), [f"udfburn-client: {line}"])
        failed, ended = map(json.loads, self.words("get", "--json", "/a", os.path.join(missing, "a"), status=1)[-2:])
        self.assertEqual((failed["error"], failed["message"], ended["failures"]), ("FileNotFoundError", line, [line]))

    def test_progress_on_a_terminal(self) -> None:
        class Terminal(StringIO):
            def isatty(self) -> bool:
                return True

        with mock.patch.dict("sys.modules", {"tqdm": None}):
            output, terminal = StringIO(), Terminal()
            bar = Progress(False, False, output, terminal)
            bar.begin(4, 4096)
            bar.told("stored", ("a",), 1024, 1)
            self.assertRegex(terminal.getvalue(), r"\[######\.{18}\]  25%  1 of 4 files  1.0 KiB of 4.0 KiB  .*/s  \d+:\d\d left")
            # The difference of other moments may be a little less.
            bar.began = 0.0
            self.assertIn("0:30 left", bar.line(10.0))
            bar.say("done")
            self.assertEqual((output.getvalue(), terminal.getvalue()[-4:]), ("done\n", "\r\x1b[K"))

    def test_progress_of_the_archive(self) -> None:
        """Where the whole is known its part is shown, else what was done; and no line is longer than the terminal."""
        class Terminal(StringIO):
            def isatty(self) -> bool:
                return True

            def fileno(self) -> int:
                return 0

        for total, columns, shown in ((2048, 200, r"50%  1 of 2 files  1.0 KiB of 2.0 KiB  .*/s  \d+:\d\d left$"), (0, 200, "got: 1 file, 1.0 KiB, .*/s$"), (2048, 10, r"\x1b\[K\[########$")):
            terminal = Terminal()
            size = os.terminal_size((columns, 24))
            with mock.patch.dict("sys.modules", {"tqdm": None}), mock.patch("udfburn.base.progress.os.get_terminal_size", lambda _, size=size: size):
                tell = Tell(False, False, StringIO(), terminal)
                tell.begin(2, total)
                tell.step("got", ("a",), 1024)
            self.assertRegex(terminal.getvalue(), shown)

    def test_progress_by_tqdm(self) -> None:
        module = mock.Mock()
        terminal = mock.Mock(isatty=lambda: True)
        with mock.patch.dict("sys.modules", {"tqdm": module}):
            bar = Progress(False, False, StringIO(), terminal)
            bar.begin(4, 4096)
            bar.told("stored", ("a",), 1024, 1)
            bar.end()
        self.assertEqual(module.tqdm.call_args[1]["total"], 4096)
        module.tqdm.return_value.update.assert_called_once_with(1024)
        module.tqdm.return_value.close.assert_called_once_with()

    def test_json(self) -> None:
        self.write("a", b"hello")
        lines = [json.loads(line) for line in self.words("put", "--json", "-r", self.folder, "/x")]
        self.assertEqual([line["did"] for line in lines], ["made", "stored", "not kept", "put"])
        self.assertEqual((lines[1]["path"], lines[1]["bytes"], lines[1]["commit"]), ("/x/a", 5, 2))
        self.assertEqual(lines[2], {"did": "not kept", "folder_times": 1})
        self.assertEqual((lines[3]["files"], lines[3]["failures"], lines[3]["status"]), (1, [], 0))
        result = json.loads(self.words("verify", "--json", self.folder, "/x")[-1])
        self.assertEqual((result["files"], result["differences"]), (1, 0))

    def test_verify_names_what_it_leaves_out(self) -> None:
        """What --skip-odd leaves out is not on the volume, whatever else is said to be there."""
        self.write("a", b"hello")
        os.symlink("a", os.path.join(self.folder, "link"))
        left_out = f"udfburn-client: left out: {self.folder}/link: is a symbolic link"
        self.assertIn(left_out, self.words("put", "-r", "--skip-odd", self.folder, "/x"))
        self.assertEqual(self.words("verify", "--skip-odd", self.folder, "/x"), [left_out, "1 file, 5 B: all are there"])

    def test_the_name_of_a_file_is_on_the_disk(self) -> None:
        """It is, when its line is printed."""
        with self.client() as client:
            client.put("/a", b"hello")
        synced: List[str] = []
        with mock.patch("udfburn.base.disk.os.fsync", lambda descriptor: synced.append(os.readlink(f"/proc/self/fd/{descriptor}"))):
            self.assertEqual(self.words("get", "/a", os.path.join(self.room, "a")), ["got /a (5 bytes)"])
        self.assertEqual(synced[1:], [os.path.realpath(self.room)])

    def test_names_break_no_line(self) -> None:
        client = self.client()
        for name in ("a\nb", "\x1b[2J", "\u202eabc", "é"):
            client.create([name], b"")
        client.close()
        self.assertEqual(self.words("ls", "/"), ["f a\\nb", "f \\x1b[2J", "f \\u202eabc", "f é"])

    def test_no_two_names_look_alike(self) -> None:
        """Each is printed with escapes that no other name has, once, in lists, steps and messages."""
        names = ["a\nb", "a\\nb", "a\\\\nb", "\x85", "\\x85", "\\u0085", "\udc85", "\\udc85", "\u202e", "\\u202e", "\x1b", "\\x1b", "\U000e0001", "\\U000e0001", "\xa0", " "]
        self.assertEqual(len(set(map(escaped, names))), len(names))
        self.assertEqual(escaped("a\nb\\c\udcff\u202e\x1bé"), "a\\nb\\\\c\\xff\\u202e\\x1bé")
        local = self.write("back\\slash")
        self.assertEqual(self.words("put", local, "/back\\slash"), ["stored /back\\\\slash (4 bytes)", "stored 1 file, 4 B"])
        self.assertEqual(self.words("ls", "/"), ["f back\\\\slash"])
        self.assertEqual(self.words("mkdir", "/back\\slash", status=1), ["udfburn-client: /back\\\\slash: already exists"])
        self.assertIn("/no\\\\way: No such file", self.words("put", os.path.join(self.room, "no\\way"), "/x", status=1)[0])
        self.assertEqual(json.loads(self.words("ls", "--json", "/")[0])["path"], "/back\\slash")

    def test_what_is_there_is_named_if_asked_for(self) -> None:
        self.write("a", b"hello")
        self.words("put", "-r", self.folder, "/x")
        for words in (("put", "-r", self.folder, "/x"), ("verify", self.folder, "/x")):
            self.assertNotIn("same /x/a", self.words(*words))
        self.assertIn("same /x/a", self.words("put", "--verbose", "-r", self.folder, "/x"))
        self.assertEqual(json.loads(self.words("put", "--json", "-r", self.folder, "/x")[0])["did"], "same")

    def test_files_and_not_pieces_are_counted(self) -> None:
        """Also where the volume has an earlier file."""
        class Terminal(StringIO):
            def isatty(self) -> bool:
                return True

        local = self.write("large", bytes(3 << 20))
        self.write("small", b"x")
        for _ in range(2):
            terminal = Terminal()
            bar = Progress(False, False, StringIO(), terminal)
            with self.client() as client:
                importer = Importer(client, ImportOptions(recursive=True), bar.told, bar.stored)
                planned = importer.plan([(self.folder, ("x",))])
                bar.begin(2, (3 << 20) + 1)
                importer.run(planned)
            self.assertEqual(bar.done_files, 2)
            with open(local, "r+b") as file:
                file.write(b"y")

    def test_failures_before_an_early_end(self) -> None:
        """A file that was not stored is named where the import goes no further than the next one, by a name that breaks no line."""
        local, real = os.path.basename(self.write("a\nb")), os.open
        self.write("c", b"too much")
        self.server.before = lambda payload: p.FULL if getattr(request_of(payload), "data", b"") == b"too much" else None

        def opened(path: str, *rest: int, **how: int) -> int:
            if path == local:
                raise PermissionError(13, "Permission denied")
            return real(path, *rest, **how)

        with mock.patch("udfburn.base.beneath.os.open", opened), mock.patch("udfburn.trees.tree.FILES_AT_ONCE", 1):
            told = self.words("put", "-r", "--delete-source", self.folder, "/x", status=1)
        self.assertEqual(told[:2], ["made /x", f"udfburn-client: {self.folder}/a\\nb: Permission denied"])
        self.assertRegex(told[2], "no room for /x/c")

    def test_a_dry_run_is_refused_as_the_command_is(self) -> None:
        """With the same line; else it prints what the command would do."""
        self.words("mkdir", "/d", "/d/e")
        self.words("put", self.write("a"), "/d/a")
        for words in (
            ("mkdir", "/d"), ("mkdir", "/d/a"), ("mkdir", "/n/x"), ("mkdir", "-p", "/d/a/x"), ("mv", "/d/a", "/d/e"), ("mv", "/d/a", "/n/a"),
            ("mv", "/d", "/d/e/d"), ("mv", "/d/a", "/d/a/x"), ("mv", "/d", "/d"), ("mv", "/n", "/m"), ("rm", "/d"), ("rm", "/d/a", "/d"), ("rm", "/"), ("rm", "/n"),
        ):
            dry = self.words(words[0], "--dry-run", *words[1:], status=1)
            if words != ("rm", "/d/a", "/d"):
                self.assertEqual(dry, self.words(*words, status=1))
        self.assertEqual(self.words("mkdir", "-p", "--dry-run", "/d/x/y", "/d/x/z", "/d"), ["would make /d/x", "would make /d/x/y", "would make /d/x/z"])
        self.assertEqual(self.words("mkdir", "--dry-run", "/n", "/n/x"), ["would make /n", "would make /n/x"])
        self.assertEqual(self.words("rm", "--dry-run", "/d/a", "/d/e", "/d"), ["would remove /d/a", "would remove /d/e", "would remove /d"])
        self.assertEqual(self.words("ls", "/d"), ["d e", "f a"])

    def test_rm_of_many(self) -> None:
        """They go out together; nothing goes where one is missing, and what is refused stays."""
        self.words("mkdir", "/d", *(f"/d/e{index}" for index in range(40)))
        names = [f"/d/e{index}" for index in range(40)]
        self.words("put", self.write("a"), "/d/e7/a")
        self.assertIn("/d/missing", self.words("rm", *names[:5], "/d/missing", status=1)[0])
        self.assertEqual(len(self.words("ls", "/d")), 40)
        told = self.words("rm", *names, *names[:2], status=1)
        self.assertIn("udfburn-client: /d/e7: is a directory with names (rm -r removes them too)", told)
        gone = {line.split()[1] for line in told if line.startswith("removed ")}
        self.assertTrue(set(names[:7]) <= gone <= set(names) - {"/d/e7"})
        self.assertEqual(self.words("rm", "-r", "/d", "/d/e7")[-1], "removed /d")

    def test_resume(self) -> None:
        self.server.before = lambda payload: p.FAULT if request_of(payload) else None
        local = self.write("a")
        self.gives_up("put", local, "/a")
        self.server.before = lambda payload: None
        self.assertEqual(self.words("resume", "--dry-run"), ["would send number 1 again: /a"])
        self.assertEqual(self.words("resume"), ["number 1, /a: done, commit 1", "1 request was pending"])

    def test_what_is_pending_comes_first(self) -> None:
        """Also where a command looks at the volume before it asks for anything: else it looks at what is no longer so."""
        for command, words in (("put", ["rm", "/a"]), ("rm", ["mkdir", "-p", "/a"])):
            self.server.before = lambda payload: p.FAULT if request_of(payload) else None
            self.gives_up(command, *([self.write("a")] if command == "put" else []), "/a")
            self.server.before = lambda payload: None
            self.assertEqual(self.words(*words), ["removed /a" if command == "put" else "made /a"])
            if command == "put":
                self.words("mkdir", "/a")

    def test_forget(self) -> None:
        self.server.before = lambda payload: p.FAULT if request_of(payload) else None
        self.gives_up("put", self.write("a"), "/a")
        self.server.before = lambda payload: None
        goes_on = "udfburn-client: goes on at number 1, with a volume that the ledger knows"
        self.assertEqual(self.words("resume", "--forget"), ["dropped /a", goes_on])
        self.assertEqual(self.words("resume"), ["0 requests were pending"])
        self.assertEqual(self.volume.commits, 0)

    def test_words_that_are_no_command(self) -> None:
        lines: List[List[str]] = [[], ["what"], ["put"], ["ls", "--no-such"], ["put", "--moment", "then", "a", "/b"]]
        for words in lines:
            with self.assertRaises(SystemExit) as raised, mock.patch("sys.stderr"):
                cli.main(words)
            self.assertEqual(raised.exception.code, 2)
        self.words("ls", "no/slash", status=2)
        self.words("ls", "/a/../b", status=2)
        self.words("ls", "--as-of", "1", "/", status=2)
        self.words("put", "--dry-run", "--verify", self.write("a"), "/a", status=2)
        with mock.patch.dict(os.environ, clear=True), mock.patch("sys.stderr"):
            self.assertEqual(cli.main(["ls", "/"]), 2)

    def test_seconds_and_clients(self) -> None:
        """What is no count of seconds, and no client, is reported as that, before anything is done."""
        told = StringIO()
        for wait in ("nan", "inf", "-inf", "-1", "-0.001", "1e999", "soon", ""):
            with self.assertRaises(SystemExit) as raised, redirect_stderr(told):
                cli.main(["ls", "--socket", self.server.path, f"--wait={wait}"])
            self.assertEqual(raised.exception.code, 2, wait)
            self.assertIn(f"{wait!r} is not a number of seconds", told.getvalue())
            if wait not in ("soon", ""):
                with self.assertRaises(e.UsageError):
                    self.client(patience=float(wait))
                with self.assertRaises(e.UsageError):
                    Client(f"unix:{self.server.path}", timeout=float(wait))
        for client in ("0", "-1", str(1 << 64), "me"):
            with self.assertRaises(SystemExit) as raised, redirect_stderr(told):
                cli.main(["mkdir", "--socket", self.server.path, f"--client={client}", "/x"])
            self.assertEqual(raised.exception.code, 2, client)
            self.assertIn(f"{client!r} is not a client number", told.getvalue())
        self.assertEqual(self.server.conversations, 0)
        for wait, seconds in (("0", 1.0), ("-0", 1.0), ("0.5", 1.0), ("1e3", 1e3), ("1e300", 1e6)):
            self.assertEqual(patience_of(cli.parser().parse_args(["ls", f"--wait={wait}"])), {"patience": float(wait), "timeout": seconds})
        for wait in ("1e3", "1e300"):
            self.words("ls", f"--wait={wait}")

    def test_help(self) -> None:
        """Each command reports what it does, and what each of its words and options is."""
        for name in cli.parser().get_default("names"):
            output = StringIO()
            with self.assertRaises(SystemExit) as raised, redirect_stdout(output), mock.patch.dict(os.environ, {"COLUMNS": "1000"}):
                cli.main([name, "--help"])
            self.assertEqual(raised.exception.code, 0)
            usage, text = output.getvalue().split("\n\n", 1)
            self.assertIn(f"udfburn-client {name}", usage)
            self.assertRegex(text, r"^[A-Z].*\. .*\.\n")
            for line in text.split("\n"):
                if line.startswith("  "):
                    self.assertRegex(line, r"^  \S.*?  +\S", f"{name}: {line}")
        self.assertNotIn("--socket", output.getvalue())

    def test_a_map_replaces_pictures_alone(self) -> None:
        """So not an image, where a pattern of the shell named two of them."""
        image, picture = self.write("other.img", bytes(4096)), os.path.join(self.folder, "map.svg")
        with mock.patch("udfburn.image.map.draw_map", lambda *_: "<svg/>\n"), redirect_stdout(StringIO()), redirect_stderr(StringIO()) as told:
            for output, status in ((image, 1), (picture, 0), (picture, 0)):
                self.assertEqual(cli.main(["map", image, output, "--program", "udfburn"]), status)
        self.assertIn("other.img: already exists, and is not a picture", told.getvalue())
        self.assertEqual((os.path.getsize(image), os.path.getsize(picture)), (4096, 7))

    def test_interrupted(self) -> None:
        """Ctrl-C leaves what the same command finishes."""
        for index in range(30):
            self.write(str(index))
        count = [0]

        def interrupt(*_: object) -> None:
            count[0] += 1
            if count[0] == 10:
                raise KeyboardInterrupt

        with mock.patch("udfburn.base.progress.Progress.told", interrupt):
            self.assertIn("finishes", self.words("put", "-r", self.folder, "/x", status=130)[-1])
        self.words("put", "-r", "--skip-same", self.folder, "/x")
        self.assertEqual(self.volume.commits, 31)


if __name__ == "__main__":
    unittest.main()
