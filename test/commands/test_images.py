"""Words, images, trees and commits: the status, the output and the line of each command of `udfburn`."""
from __future__ import annotations

from commands.case import (CREATE, CREATED, CREATED_BLOCKS, FORMATTED_BLOCKS, MADE, MAKE, REMOVE, REMOVED, Case, Told, done,
                           refused)
from protocol import BLOCK, DAMAGED, MALFORMED, Answer

USAGE = Told(2, b"", b"udfburn: usage\n")
FORMAT = ("format", "d.img", "DISC", "0", "3000")
FORMATTED = done(b"formatted\n")


class Words(Case):
    """What is refused, or answered, before an image is opened."""

    def test_other_words(self) -> None:
        self.rows(
            ((), b"", USAGE),
            (("format", "never.img", "DISC", "0", "511"), b"", USAGE),
            (("apply", "mem:511"), b"", USAGE),
            (("ls", "never.img"), b"", USAGE),
            (("check", "never.img", "x"), b"", USAGE),
        )
        self.assertFalse(self.path("never.img").exists())

    def test_a_path_comes_before_the_image(self) -> None:
        for path in ("", "a", "/a/", "//", "/.."):
            self.rows((("get", "missing.img", path), b"", refused("55 Path")))
        self.rows((("get", "missing.img", "/a"), b"", refused("64 Device")))

    def test_a_length_that_is_too_long(self) -> None:
        """It is the last of what is read."""
        answer = Answer(MALFORMED, b"\x33\0").framed()
        self.rows((("apply", "mem:3000"), b"\0\0\0\x80" + b"\2\0\0\0\x11\0", done(answer)))

    def test_an_image_that_is_missing(self) -> None:
        """It is not made, and another one beside it is no image of that name."""
        self.formatted("there.img")
        self.rows(
            (("apply", "d.img"), CREATE, refused("64 Device")),
            (("ls", "d.img", "/"), b"", refused("64 Device")),
            (("get", "d.img", "/a"), b"", refused("64 Device")),
            (("log", "d.img"), b"", refused("64 Device")),
            (("check", "d.img"), b"", refused("64 Device")),
        )
        self.assertFalse(self.path("d.img").exists())


class Formats(Case):
    def test_a_volume_that_is_there(self) -> None:
        """The words that made it make it once more; others are refused, and leave it."""
        new = self.formatted()
        self.has_blocks(FORMATTED_BLOCKS)
        self.rows(
            (FORMAT, b"", FORMATTED),
            (("format", "d.img", "DISK", "0", "3000"), b"", refused("61 NotBlank")),
            (("format", "d.img", "", "0", "3000"), b"", refused("62 Label")),
            (("format", "d.img", "DISC", "1", "3000"), b"", refused("61 NotBlank")),
        )
        self.assertEqual(self.path("d.img").read_bytes(), new)

    def test_a_length_comes_before_the_label(self) -> None:
        self.path("d.img").write_bytes(bytes(513 * BLOCK))
        self.rows((("format", "d.img", "", "0", "512"), b"", refused("64 Device")))
        self.assertEqual(self.path("d.img").read_bytes(), bytes(513 * BLOCK))

    def test_a_refused_label_leaves_an_empty_image(self) -> None:
        """A message that needs the volume is answered with 39."""
        self.rows((("format", "d.img", "", "0", "3000"), b"", refused("62 Label")))
        self.has_blocks(0)
        self.rows(
            (("ls", "d.img", "/"), b"", refused("66 NotFormatted")),
            (("get", "d.img", "/a"), b"", refused("66 NotFormatted")),
            (("apply", "d.img"), CREATE, done(Answer(DAMAGED).framed())),
        )
        self.has_blocks(0)

    def test_a_part_of_a_block(self) -> None:
        """A format that was cut inside a block is finished by the words that began it, and by no others."""
        whole = self.formatted()
        part = whole[:34 * BLOCK + 900]
        for other in (("DISC", "0", "2999"), ("DISK", "0", "3000")):
            self.path("d.img").write_bytes(part)
            self.rows((("format", "d.img", *other), b"", refused("61 NotBlank")))
            self.assertEqual(self.path("d.img").read_bytes(), part)
        self.rows((FORMAT, b"", FORMATTED))
        self.assertEqual(self.path("d.img").read_bytes(), whole)


class Volumes(Case):
    """Commands one after another on images, each by a process of its own."""

    def test_a_tree_is_read(self) -> None:
        self.formatted()
        self.rows(
            (("ls", "d.img", "/"), b"", done()),
            (("apply", "d.img"), CREATE, done(CREATED)),
            (("apply", "d.img"), MAKE, done(MADE)),
            (("ls", "d.img", "/"), b"", done(b"f a\nd d\n")),
            (("ls", "d.img", "/d"), b"", done()),
            (("get", "d.img", "/a"), b"", done(b"hello")),
            (("get", "d.img", "/d"), b"", refused("97 IsDirectory")),
            (("ls", "d.img", "/a"), b"", refused("98 NotDirectory")),
            (("get", "d.img", "/d/x"), b"", refused("96 NotFound")),
        )

    def test_commits_are_listed(self) -> None:
        """A repeat commits nothing."""
        self.formatted()
        self.rows(
            (("log", "d.img"), b"", done(b"0 261 0 1\n")),
            (("apply", "d.img"), CREATE, done(CREATED)),
            (("log", "d.img"), b"", done(b"1 266 1 1\n0 261 0 1\n")),
            (("check", "d.img"), b"", done(b"sound 1\n")),
            (("apply", "d.img"), CREATE, done(CREATED)),
            (("apply", "d.img"), MAKE, done(MADE)),
            (("apply", "d.img"), REMOVE, done(REMOVED)),
            (("log", "d.img"), b"", done(b"3 276 0 2\n2 272 1 2\n1 266 1 1\n0 261 0 1\n")),
            (("check", "d.img"), b"", done(b"sound 3\n")),
        )

    def test_another_image_stays(self) -> None:
        """A format on a volume with a commit is refused, and changes nothing."""
        self.formatted()
        self.rows((("format", "other.img", "OTHER", "0", "512"), b"", FORMATTED))
        other = self.path("other.img").read_bytes()
        self.rows((("apply", "d.img"), CREATE, done(CREATED)))
        one = self.path("d.img").read_bytes()
        self.rows(
            (FORMAT, b"", refused("61 NotBlank")),
            (("log", "d.img"), b"", done(b"1 266 1 1\n0 261 0 1\n")),
            (("log", "other.img"), b"", done(b"0 261 0 1\n")),
        )
        self.assertEqual([self.path(name).read_bytes() for name in ("d.img", "other.img")], [one, other])


class Damage(Case):
    def damage(self, at: int, byte: int) -> None:
        content = bytearray(self.path("d.img").read_bytes())
        self.assertNotEqual(content[at], byte)
        content[at] = byte
        self.path("d.img").write_bytes(content)

    def test_it_is_named(self) -> None:
        new = self.formatted()
        at = 259 * BLOCK + 40
        self.damage(at, new[at] ^ 1)
        self.rows((("ls", "d.img", "/"), b"", refused("67 Damaged block 259 cause 21")))

    def test_an_earlier_state_that_does_not_stand(self) -> None:
        """The entry of the root as it was formatted: every commit is listed, and one of them is not sound."""
        self.created()
        self.damage(259 * BLOCK + 100, 0x5A)
        self.rows(
            (("log", "d.img"), b"", done(b"1 266 1 1\n0 261 0 1\n")),
            (("check", "d.img"), b"", refused("67 Damaged block 259 cause 21")),
        )

    def test_a_link_that_does_not_stand(self) -> None:
        self.created()
        self.damage(261 * BLOCK + 100, 0x5A)
        self.rows(
            (("log", "d.img"), b"", refused("67 Damaged block 261 cause 78")),
            (("check", "d.img"), b"", refused("67 Damaged block 261 cause 78")),
            (("ls", "d.img", "/"), b"", done(b"f a\n")),
        )


class Cuts(Case):
    def test_a_commit_that_was_cut_is_done_once(self) -> None:
        """It loses its last block, some of its blocks, and a part of a block."""
        whole = self.created()
        for size in (266 * BLOCK, 263 * BLOCK, 263 * BLOCK + 77):
            self.path("d.img").write_bytes(whole[:size])
            self.rows(
                (("ls", "d.img", "/"), b"", done()),
                (("get", "d.img", "/a"), b"", refused("96 NotFound")),
            )
            for _ in range(2):
                self.rows((("apply", "d.img"), CREATE, done(CREATED)))
                self.has_blocks(size // BLOCK + CREATED_BLOCKS - FORMATTED_BLOCKS)
            self.rows((("get", "d.img", "/a"), b"", done(b"hello")))
