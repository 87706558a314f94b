"""Files of vectors: their lines, and the tests from which each case came."""

import textwrap

WIDTH = 118


def shown(data: bytes) -> str:
    """Bytes in their one form: a text where all are letters, else digits with runs of eight and more alike as such."""
    if data and all(0x21 <= byte <= 0x7E and byte != 0x22 for byte in data):
        return f'"{data.decode()}"'
    return digits(data)


def digits(data: bytes) -> str:
    words, at = "", 0
    while at < len(data):
        end = at
        while end < len(data) and data[end] == data[at]:
            end += 1
        if end - at >= 8:
            words += f" {data[at]:02X}*{end - at} "
        else:
            words += data[at:end].hex().upper()
        at = end
    return " ".join(words.split())


def told(text: str) -> str:
    """A text by its UTF-8; `empty` is the one without a character."""
    return shown(text.encode()) if text else "empty"


def padded(data: bytes) -> str:
    """The blocks with the zeros at the end of each left out: `..` is zeros up to the end of a block."""
    words = []
    for at in range(0, len(data), 2048):
        piece = data[at : at + 2048]
        short = piece.rstrip(b"\0")
        if len(piece) == 2048 and len(piece) - len(short) >= 8:
            words.append(f"{digits(short)} .." if short else "00*2048")
        else:
            words.append(digits(piece))
    return " ".join(words)


def repeated(data: bytes, begin: int, name: str = "", named: bytes = b"", unit: int = 16) -> str:
    """A block in which units of so many bytes begin at a place: bytes that have a name by it, equal units after one another by one word."""
    words, at = [digits(data[:begin])], begin
    if named and data.startswith(named, at):
        words.append("{" + name + "}")
        at += len(named)
    while any(data[at:]):
        one = data[at : at + unit]
        count = 1
        while data[at + count * unit : at + (count + 1) * unit] == one:
            count += 1
        words.append(f"{one.hex().upper()}*{count}" if count > 1 else digits(one))
        at += count * len(one)
    return " ".join(words + [".."] * (at < len(data)))


def wrapped(line: str) -> str:
    """The line in several that go on with one another where it is long."""
    if len(line) <= WIDTH:
        return line
    pieces = textwrap.wrap(" ".join(_cut(line)), WIDTH - 6, break_long_words=False, break_on_hyphens=False)
    return " \\\n    ".join(pieces)


def _cut(line: str) -> "list[str]":
    """The words of a line, those of many digits in pieces of thirty-two bytes."""
    words = []
    for word in line.split():
        if len(word) > 64 and all(letter in "0123456789ABCDEF" for letter in word):
            words += [word[at : at + 64] for at in range(0, len(word), 64)]
        else:
            words.append(word)
    return words


class Vectors:
    """The text of one file, and the number of cases of each test that they replace."""

    def __init__(self, name: str, about: str) -> None:
        self.name = name
        self.text = "".join(f"# {line}\n" for line in textwrap.wrap(about, WIDTH - 2))
        self.names: "set[str]" = set()
        self.of: "dict[str, int]" = {}
        self.cases = 0

    def about(self, text: str) -> None:
        """A comment above the cases that follow."""
        self.text += "\n" + "".join(f"# {line}\n" for line in textwrap.wrap(text, WIDTH - 2))

    def let(self, name: str, words: str) -> None:
        """A name that stands for bytes in the lines after it."""
        self.text += "\n" + wrapped(f"let {name} {words}") + "\n"

    def words(self, name: str, words: str) -> None:
        """A name that stands for words in the answers after it."""
        self.text += "\n" + wrapped(f"words {name} {words}") + "\n"

    def case(self, name: str, of: str, *lines: str) -> None:
        """A case; `of` are the tests that had it, with spaces between them."""
        if name in self.names:
            raise ValueError(f"{name} is there twice")
        self.names.add(name)
        self.cases += 1
        for test in of.split():
            self.of[test] = self.of.get(test, 0) + 1
        self.text += f"\ncase {name}\n" + "".join(wrapped(line) + "\n" for line in lines)

    def lines(self) -> "list[str]":
        """The lines without comments, those that go on with one another as one."""
        whole = self.text.replace("\\\n", "")
        return [line for line in whole.splitlines() if line and not line.startswith("#")]
