"""Each allocation refused in turn: never a crash, the answers and lines of docs/PROTOCOL.md and docs/OPERATIONS.md, and after repeats
the same volume as without.

Lack of memory writes nothing: so after the repeats the image has the same bytes as that of a run in which nothing was refused.
"""
from __future__ import annotations

import unittest
from pathlib import Path
from typing import Optional, Union

from faults.load_support import Case, connect_or_none, converse, during, expect_answers, in_pairs, listing, spell_all
from faults.machine import lacks
from faults.programs import built
from faults.running import Client, Daemon, Ran
from protocol import MEMORY, PIECE, Answer, Model, Request, answers_of, committed, paths_of, split_answers

Message = Union[Request, tuple[str, str]]

MEBIBYTE = bytes(range(256)) * 4096
# What is there before: a directory, a file that goes, one that moves.
BEFORE = [
    Request("create", 5, 1, "/old", b"o" * 3000, moment=1),
    Request("mkdir", 5, 2, "/d", moment=2),
    Request("create", 5, 3, "/moved", b"m", moment=3),
]
MESSAGES: list[Message] = [
    Request("create", 7, 1, "/a", b"hello", moment=4),
    Request("create", 7, 2, "/a", b"other", moment=5),
    Request("remove", 7, 3, "/old", moment=6),
    ("get", "/moved"),
    Request("rename", 7, 4, "/moved", to="/d/moved", moment=7),
    ("list", "/d"),
    Request("create", 7, 5, "/d/large", MEBIBYTE, moment=8),
    ("get", "/d/large"),
    Request("replace", 7, 6, "/a", b"again" * 500, moment=9),
    ("list", "/"),
]
MEMORY_LINES = {b"65 Memory", b"93 Memory"}
# A connection for which memory is short is closed, and counts as one that was served.
DAEMON_LINES = MEMORY_LINES | {b"94 Socket"}


class Refusing(Case):
    def setUp(self) -> None:
        super().setUp()
        self.need_allocfail()
        self.fresh("new.img", capacity=20000)
        ran = self.apply(spell_all(BEFORE), image="new.img")
        model = Model()
        self.assertEqual(answers_of(ran.output), [model.answer(request) for request in BEFORE])
        self.before = self.path("new.img").read_bytes()
        self.path("new.img").unlink()

    def need_allocfail(self) -> None:
        """Leaves the tests out where the programs do not take their memory from the system's library."""
        ran = self.udfburn("ls", "none.img", "/", more={"LD_PRELOAD": built().allocfail, "ALLOC_FROM": "1"})
        if ran.errors == b"udfburn: 64 Device\n":
            lacks("the programs do not take their memory from a library of LD_PRELOAD")

    def volume(self, name: str) -> Path:
        path = self.path(name)
        path.write_bytes(self.before)
        return path

    def model(self) -> Model:
        model = Model()
        for request in BEFORE:
            model.answer(request)
        return model

    def refusing(self, **rule: int) -> dict[str, str]:
        """The environment of a program of whose allocations some are refused."""
        return {"LD_PRELOAD": built().allocfail, **{"ALLOC_" + name.upper(): str(number) for name, number in rule.items()}}

    def count(self, *words: str, stdin: bytes = b"") -> int:
        """How many allocations a run takes in which none is refused."""
        path = self.path("count")
        ran = self.udfburn(*words, stdin=stdin, more={**self.refusing(), "ALLOC_COUNT": str(path)})
        self.assertEqual((ran.status, ran.errors), (0, b""))
        found = int(path.read_text())
        path.unlink()
        # Less than this and the library is not in use.
        self.assertGreater(found, 5)
        return found

    def rules(self, count: int) -> list[dict[str, int]]:
        """Each alone, each with all after it, and each so many-th, one more than there are included."""
        numbers = range(1, count + 2)
        return ([{"fail": number} for number in numbers] + [{"from": number} for number in numbers]
                + [{"every": number} for number in range(2, min(count, 60) + 1)])

    def told(self, ran: Ran, name: bytes = b"udfburn") -> Optional[bytes]:
        """The line of a run, or None where it had status 0 and reported nothing."""
        if ran.status == 0:
            self.assertEqual(ran.errors, b"")
            return None
        self.assertEqual(ran.status, 1, "status %d, %r" % (ran.status, ran.errors))
        self.assertTrue(ran.errors.startswith(name + b": ") and ran.errors.endswith(b"\n"), ran.errors)
        self.assertEqual(ran.errors.count(b"\n"), 1)
        return ran.errors[len(name) + 2:-1]


class Reading(Refusing):
    """Commands that write no image."""

    def each(self, words: list[str], expected: bytes) -> set[int]:
        """How many bytes were printed where memory was short."""
        image = self.volume("d.img")
        self.tell(self.udfburn(*words), 0, expected, b"")
        count = self.count(*words)
        refused = 0
        printed: set[int] = set()

        def run(rule: dict[str, int]) -> None:
            nonlocal refused
            with during("%r, %r" % (words, rule)):
                ran = self.udfburn(*words, more=self.refusing(**rule))
                line = self.told(ran)
                if line is None:
                    self.assertEqual(ran.output, expected)
                else:
                    self.assertEqual(line, b"65 Memory")
                    self.assertTrue(expected.startswith(ran.output))
                    printed.add(len(ran.output))
                    refused += 1

        in_pairs(run, self.rules(count))
        self.assertGreater(refused, count // 2)
        self.assertEqual(image.read_bytes(), self.before)
        self.tell(self.udfburn(*words), 0, expected, b"")
        return printed

    def test_ls(self) -> None:
        self.each(["ls", "d.img", "/"], listing(self.model(), "/"))

    def test_get(self) -> None:
        self.assertEqual(self.each(["get", "d.img", "/old"], b"o" * 3000), {0})

    def test_get_of_several_pieces(self) -> None:
        """What was printed before memory was short is whole pieces."""
        self.volume("d.img")
        data = MEBIBYTE + MEBIBYTE[::-1] + b"end"
        requests = [Request("append" if at else "create", 5, 4 + at // PIECE, "/pieces", data[at:at + PIECE], offset=at)
                    for at in range(0, len(data), PIECE)]
        self.tell(self.apply(spell_all(requests)), 0, b"".join(committed(0, 4 + at).framed() for at in range(3)), b"")
        self.before = self.path("d.img").read_bytes()
        self.assertEqual(self.each(["get", "d.img", "/pieces"], data), {0, PIECE, 2 * PIECE})

    def test_log(self) -> None:
        self.volume("d.img")
        # Addresses are no business of this test.
        self.each(["log", "d.img"], self.udfburn("log", "d.img").output)

    def test_check(self) -> None:
        self.each(["check", "d.img"], b"sound 3\n")

    def test_faults_of_words(self) -> None:
        """Where memory is short, that is reported, or what is wrong with the words."""
        for words, line in ((["ls", "none.img", "/"], b"64 Device"), (["get", "d.img", "/none"], b"96 NotFound"),
                            (["ls", "d.img", "/old"], b"98 NotDirectory"), (["ls", "d.img", "x"], b"55 Path")):
            self.volume("d.img")
            for number in range(1, 60):
                with during("%r, %d" % (words, number)):
                    ran = self.udfburn(*words, more=self.refusing(fail=number))
                    self.assertIn(self.told(ran), (line, b"65 Memory"))


class Formatting(Refusing):
    def test_format(self) -> None:
        """What was cut short is finished by the same words."""
        words = ["DISC", "77", "900"]
        self.tell(self.udfburn("format", "whole.img", *words), 0, b"formatted\n", b"")
        whole = self.path("whole.img").read_bytes()
        count = self.count("format", "count.img", *words)

        def run(rule: dict[str, int]) -> None:
            name = "f%s%d.img" % next(iter(rule.items()))
            with during("format, %r" % rule):
                ran = self.udfburn("format", name, *words, more=self.refusing(**rule))
                line = self.told(ran)
                if line is None:
                    self.assertEqual(ran.output, b"formatted\n")
                    self.assertEqual(self.path(name).read_bytes(), whole)
                else:
                    self.assertEqual((line, ran.output), (b"65 Memory", b""))
                self.tell(self.udfburn("format", name, *words), 0, b"formatted\n", b"")
                self.assertEqual(self.path(name).read_bytes(), whole)
                self.path(name).unlink()

        in_pairs(run, self.rules(count))


class Applying(Refusing):
    def setUp(self) -> None:
        super().setUp()
        self.volume("whole.img")
        ran = self.apply(spell_all(MESSAGES), image="whole.img")
        self.assertEqual((ran.status, ran.errors), (0, b""))
        self.final = self.model()
        self.assertEqual(answers_of(ran.output), expect_answers(self.final, MESSAGES, answers_of(ran.output)))
        self.assertNotIn(Answer(MEMORY), answers_of(ran.output))
        self.whole = self.path("whole.img").read_bytes()

    def follow(self, model: Model, answers: list[Answer]) -> None:
        """The answers are those that are due, or 37, after which the request was not run."""
        self.assertEqual(answers, expect_answers(model, MESSAGES, answers))

    def test_apply(self) -> None:
        self.volume("d.img")
        count = self.count("apply", "d.img", stdin=spell_all(MESSAGES))
        short = 0

        def run(rule: dict[str, int]) -> None:
            nonlocal short
            name = "a%s%d.img" % next(iter(rule.items()))
            with during("apply, %r" % rule):
                path = self.volume(name)
                ran = self.apply(spell_all(MESSAGES), image=name, more=self.refusing(**rule))
                line = self.told(ran)
                answers, rest = split_answers(ran.output)
                model = self.model()
                self.follow(model, answers)
                if line is None:
                    self.assertEqual((len(answers), rest), (len(MESSAGES), b""))
                else:
                    self.assertIn(line, MEMORY_LINES)
                short += line is not None or Answer(MEMORY) in answers
                # The same messages again, with memory for all: what was run has its reply, the others are run now.
                ran = self.apply(spell_all(MESSAGES), image=name)
                self.assertEqual((ran.status, ran.errors), (0, b""))
                again = answers_of(ran.output)
                self.assertEqual(len(again), len(MESSAGES))
                self.assertNotIn(Answer(MEMORY), again)
                if line is None:
                    self.follow(model, again)
                self.assertEqual(path.read_bytes(), self.whole)
                path.unlink()

        in_pairs(run, self.rules(count))
        self.assertGreater(short, count // 2)
        self.path("d.img").write_bytes(self.whole)
        self.tree_is(self.final, paths_of([message for message in BEFORE + MESSAGES if isinstance(message, Request)]))

    def serve(self, name: str, more: dict[str, str], connections: int) -> tuple[Daemon, Optional[Client]]:
        daemon = Daemon(self.folder, name, "--connections", str(connections), socket_name=name[:-4], more=more)
        return daemon, connect_or_none(daemon)

    def converse(self, client: Client) -> list[Answer]:
        """Sends the messages, and reads the answers to the end."""
        def send() -> None:
            try:
                client.send(spell_all(MESSAGES))
                client.end()
            except OSError:
                pass

        answers = converse(send, client.answer)
        client.close()
        return answers

    def test_daemon(self) -> None:
        counted = self.path("count")
        self.volume("c.img")
        daemon, client = self.serve("c.img", {**self.refusing(), "ALLOC_COUNT": str(counted)}, 1)
        assert client is not None
        self.assertEqual(len(self.converse(client)), len(MESSAGES))
        self.assertEqual(daemon.wait(), 0)
        count = int(counted.read_text())
        short = 0

        def run(rule: dict[str, int]) -> None:
            nonlocal short
            name = "d%s%d.img" % next(iter(rule.items()))
            with during("daemon, %r" % rule):
                path = self.volume(name)
                daemon, client = self.serve(name, self.refusing(**rule), 2)
                with daemon:
                    model = self.model()
                    is_whole = client is not None
                    for last in (False, True):
                        if client is None:
                            break
                        answers = self.converse(client)
                        if is_whole:
                            self.follow(model, answers)
                        is_whole = is_whole and len(answers) == len(MESSAGES)
                        short += not is_whole or Answer(MEMORY) in answers
                        client = None if last else connect_or_none(daemon)
                    status = daemon.wait()
                    lines = daemon.errors().splitlines()
                    self.assertIn(status, (0, 1), "it ended with %d" % status)
                    self.assertLessEqual({line[len(b"udfburnd: "):] for line in lines}, DAEMON_LINES)
                    if status == 1:
                        short += 1
                        self.assertEqual(len(lines), 1)
                # One refusal alone leaves the second conversation in peace.
                if status == 0 and "fail" in rule:
                    self.assertNotIn(Answer(MEMORY), answers)
                    self.assertEqual(path.read_bytes(), self.whole)
                ran = self.apply(spell_all(MESSAGES), image=name)
                self.assertEqual((ran.status, len(answers_of(ran.output))), (0, len(MESSAGES)))
                self.assertEqual(path.read_bytes(), self.whole)
                path.unlink()

        in_pairs(run, self.rules(count))
        self.assertGreater(short, count // 2)


if __name__ == "__main__":
    unittest.main()
