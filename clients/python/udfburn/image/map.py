"""The medium of an image as a picture: the blocks of each commit, what is left, and how the tree grew."""

from __future__ import annotations

import colorsys
import os
import struct
from typing import Iterator, List, NamedTuple, Sequence, Tuple
from xml.sax.saxutils import escape

from ..base.beneath import open_medium
from ..base.progress import plural, size
from ..protocol import limits
from ..protocol.units import Address
from ..reader import Medium
from ..reader.basics import PARTITION
from ..reader.group import counted_blocks
from .past import LoggedCommit, commits

WIDTH, LEFT, RIGHT = 1200, 80, 28
INNER = WIDTH - LEFT - RIGHT
CHART_TOP, CHART = 122, 120
STRIP_TOP, STRIP = 262, 34
GRID_TOP = 364
COLUMNS, CELLS = 128, 3200
FONT = "font-family=\"'Inter','Segoe UI','Helvetica Neue',Arial,sans-serif\""

INK, SOFT, FAINT, PAPER = "#1d2733", "#5c6b7a", "#d9e0e7", "#ffffff"
FRONT, FREE = "#9aa7b5", "#eef2f6"
FILE_COLOUR, DIRECTORY_COLOUR = "#0f766e", "#b45309"


class ColouredRun(NamedTuple):
    """Blocks that belong together: from an address up to another, their colour, and what they are."""

    begin: Address
    end: Address
    colour: str
    text: str


class Picture(NamedTuple):
    """What the picture shows."""

    name: str
    label: str
    capacity: int
    written: int
    commits: Sequence[LoggedCommit]


def read_medium(image: str, program: str) -> Picture:
    """The medium of an image."""
    known = commits(image, program)
    with open(open_medium(image), "rb") as file:
        file.seek(32 * limits.BLOCK + 24)
        label = dstring(file.read(32))
        file.seek(34 * limits.BLOCK + 192)
        (partition,) = struct.unpack("<I", file.read(4))
    with Medium(image) as medium:
        written = counted_blocks(medium)
    return Picture(os.path.basename(image), label, partition + PARTITION, written, known)


def dstring(field: bytes) -> str:
    """The text of a dstring."""
    used = field[: field[-1]]
    return used[1:].decode("utf-16-be" if used[:1] == b"\x10" else "latin-1", "replace")


def colour(index: int, count: int) -> str:
    """The colour of a commit: from blue by violet and red to gold, neighbours distinguished by their lightness."""
    part = index / max(count - 1, 1)
    hue = (0.56 + 0.58 * part) % 1.0
    light = (0.46, 0.58, 0.52)[index % 3] + 0.05 * part
    red, green, blue = colorsys.hls_to_rgb(hue, light, 0.62)
    return f"#{round(red * 255):02x}{round(green * 255):02x}{round(blue * 255):02x}"


def address_after(commit: LoggedCommit) -> Address:
    """The address after the last block of a commit."""
    return Address(commit.address + 1)


def runs_of(medium: Picture) -> List[ColouredRun]:
    """The medium from its first block to its last."""
    first = medium.commits[0]
    runs = [ColouredRun(Address(0), address_after(first), FRONT, f"the format: blocks 0 to {first.address}")]
    count = len(medium.commits) - 1
    for index, (before, commit) in enumerate(zip(medium.commits, medium.commits[1:])):
        begin, end = address_after(before), address_after(commit)
        text = (
            f"commit {commit.number}: blocks {begin} to {commit.address}, {end - begin} blocks; after it "
            f"{plural(commit.files, 'file', 'files')}, {plural(commit.directories, 'directory', 'directories')}"
        )
        runs.append(ColouredRun(begin, end, colour(index, count), text))
    last, written = address_after(medium.commits[-1]), Address(medium.written)
    if written > last:
        runs.append(ColouredRun(last, written, "#c9b8b8", f"blocks of a commit that was cut: {last} to {medium.written - 1}"))
    if medium.capacity > medium.written:
        runs.append(ColouredRun(written, Address(medium.capacity), FREE, f"left: {medium.capacity - medium.written:,} blocks"))
    return runs


# ---- drawn

def svg_text(x: float, y: float, words: str, points: float = 13, fill: str = SOFT, anchor: str = "start", weight: int = 400) -> str:
    """A line of text."""
    return (
        f'<text x="{x:.1f}" y="{y:.1f}" font-size="{points}" fill="{fill}" text-anchor="{anchor}" '
        f'font-weight="{weight}">{escape(words)}</text>'
    )


def box(x: float, y: float, width: float, height: float, fill: str, title: str = "") -> str:
    """A filled box, which says what it is under the pointer."""
    shape = f'<rect x="{x:.2f}" y="{y:.2f}" width="{max(width, 0.1):.2f}" height="{height:.2f}" fill="{fill}"'
    return f"{shape}><title>{escape(title)}</title></rect>" if title else f"{shape}/>"


def head(medium: Picture) -> Iterator[str]:
    """The name of the volume and its counts."""
    last = medium.commits[-1]
    name = medium.label or medium.name
    # A long one stays clear of the words at the right, also where all its letters are wide.
    yield svg_text(LEFT, 50, name, 28 if len(name) <= 24 else 22, INK, weight=650)
    parts = [
        plural(last.number, "commit", "commits"), plural(last.files, "file", "files"),
        plural(last.directories, "directory", "directories"),
        f"{medium.written:,} of {medium.capacity:,} blocks written ({size(medium.written * limits.BLOCK)} of {size(medium.capacity * limits.BLOCK)})",
    ]
    yield svg_text(LEFT, 76, "   ·   ".join(parts), 14)
    x = float(WIDTH - RIGHT)
    for name, fill in (("directories", DIRECTORY_COLOUR), ("files", FILE_COLOUR)):
        yield svg_text(x, 50, name, 13, INK, "end")
        x -= 7.2 * len(name) + 14
        yield f'<line x1="{x - 18:.1f}" y1="45.5" x2="{x + 4:.1f}" y2="45.5" stroke="{fill}" stroke-width="3" stroke-linecap="round"/>'
        x -= 40


def at(medium: Picture, address: float) -> float:
    """Where an address is in the strip."""
    return LEFT + INNER * address / medium.capacity


def chart(medium: Picture) -> Iterator[str]:
    """Files and directories after each commit, over the addresses of the strip."""
    most = max(max(commit.files, commit.directories) for commit in medium.commits) or 1
    step = nice(most / 3)
    top = step * -(-most // step)
    scale = CHART / top
    base = CHART_TOP + CHART
    for value in range(0, int(top) + 1, step):
        y = base - value * scale
        yield f'<line x1="{LEFT}" y1="{y:.1f}" x2="{WIDTH - RIGHT}" y2="{y:.1f}" stroke="{FAINT}" stroke-width="1"/>'
        yield svg_text(LEFT - 10, y + 4, f"{value:,}", 12, anchor="end")
    for name, fill in (("files", FILE_COLOUR), ("directories", DIRECTORY_COLOUR)):
        points = stairs(medium, [getattr(commit, name) for commit in medium.commits], base, scale)
        path = " ".join(f"{x:.1f},{y:.1f}" for x, y in points)
        if name == "files":
            end = points[-1][0]
            yield f'<polygon points="{points[0][0]:.1f},{base} {path} {end:.1f},{base}" fill="{fill}" opacity="0.10"/>'
        yield f'<polyline points="{path}" fill="none" stroke="{fill}" stroke-width="2.2" stroke-linejoin="round"/>'
        yield f'<circle cx="{points[-1][0]:.1f}" cy="{points[-1][1]:.1f}" r="3.6" fill="{fill}"/>'


def nice(value: float) -> int:
    """A round number that is not below a value."""
    power = 1
    while True:
        for digit in (1, 2, 5):
            if digit * power >= value:
                return digit * power
        power *= 10


def stairs(medium: Picture, values: Sequence[int], base: float, scale: float) -> List[Tuple[float, float]]:
    """A line that rises with the last block of each commit."""
    points = [(at(medium, address_after(medium.commits[0])), base - values[0] * scale)]
    for before, value, commit in zip(values, values[1:], medium.commits[1:]):
        x = at(medium, address_after(commit))
        points += [(x, base - before * scale), (x, base - value * scale)]
    points.append((at(medium, medium.written), points[-1][1]))
    return thinned(points)


def thinned(points: List[Tuple[float, float]]) -> List[Tuple[float, float]]:
    """Points without those that nobody sees."""
    kept = points[:1]
    for point in points[1:]:
        if abs(point[0] - kept[-1][0]) >= 0.05 or abs(point[1] - kept[-1][1]) >= 0.05:
            kept.append(point)
    return kept


def strip(medium: Picture, runs: Sequence[ColouredRun]) -> Iterator[str]:
    """The whole medium as one strip."""
    yield f'<clipPath id="strip"><rect x="{LEFT}" y="{STRIP_TOP}" width="{INNER}" height="{STRIP}" rx="7"/></clipPath>'
    yield '<g clip-path="url(#strip)" shape-rendering="crispEdges">'
    for run in merged(runs, medium.capacity / INNER / 2):
        # Half a point more, so that no gap is seen between neighbours.
        yield box(at(medium, run.begin), STRIP_TOP, INNER * (run.end - run.begin) / medium.capacity + 0.5, STRIP, run.colour, run.text)
    yield "</g>"
    step = nice(medium.capacity / 8)
    for address in [*range(0, medium.capacity - step // 2, step), medium.capacity]:
        x = at(medium, address)
        yield f'<line x1="{x:.1f}" y1="{STRIP_TOP + STRIP + 3}" x2="{x:.1f}" y2="{STRIP_TOP + STRIP + 8}" stroke="{SOFT}" stroke-width="1"/>'
        yield svg_text(x, STRIP_TOP + STRIP + 22, f"{address:,}", 12, anchor="end" if address == medium.capacity else "middle" if address else "start")
    left = medium.capacity - medium.written
    if left > medium.capacity / 8:
        yield svg_text(at(medium, medium.written + left / 2), STRIP_TOP + STRIP / 2 + 5, f"{left:,} blocks left", 13, anchor="middle")


def merged(runs: Sequence[ColouredRun], least: float) -> List[ColouredRun]:
    """Runs, of which those that are too narrow to be seen are drawn with the next one."""
    kept: List[ColouredRun] = []
    for run in runs:
        if kept and kept[-1].end - kept[-1].begin < least and run.colour != FREE:
            kept[-1] = ColouredRun(kept[-1].begin, run.end, run.colour, run.text)
        else:
            kept.append(run)
    return kept


def grid(medium: Picture, runs: Sequence[ColouredRun]) -> Iterator[str]:
    """The medium row by row, a cell for each block, or for as many as make it fit."""
    each = max(1, -(-medium.capacity // CELLS))
    cell = INNER / COLUMNS
    row_blocks = each * COLUMNS
    words = "each cell is a block of 2 KiB" if each == 1 else f"each cell is {each} blocks"
    yield svg_text(LEFT, GRID_TOP - 12, f"Every commit, in the order in which it was written: {words}, a row {row_blocks:,}", 13)
    yield '<g shape-rendering="crispEdges">'
    for run in merged(runs, each / 2):
        for begin, end in rows(run, row_blocks):
            row, column = divmod(begin, row_blocks)
            yield box(LEFT + column / each * cell, GRID_TOP + row * cell, (end - begin) / each * cell, cell, run.colour, run.text)
    yield "</g>"
    yield from grid_lines(medium, cell, row_blocks)
    if each == 1:
        for commit in medium.commits:
            row, column = divmod(commit.address, COLUMNS)
            yield f'<circle cx="{LEFT + (column + 0.5) * cell:.1f}" cy="{GRID_TOP + (row + 0.5) * cell:.1f}" r="1.7" fill="#ffffff"/>'


def rows(run: ColouredRun, row_blocks: int) -> Iterator[Tuple[Address, Address]]:
    """The parts of a run, one in each row."""
    begin = run.begin
    while begin < run.end:
        end = min(run.end, Address((begin // row_blocks + 1) * row_blocks))
        yield begin, end
        begin = end


def row_count(medium: Picture) -> int:
    each = max(1, -(-medium.capacity // CELLS))
    return -(-medium.capacity // (each * COLUMNS))


def grid_lines(medium: Picture, cell: float, row_blocks: int) -> Iterator[str]:
    """The gaps between cells, and the address at which each few rows begin."""
    height = row_count(medium) * cell
    path = "".join(f"M{LEFT + column * cell:.2f} {GRID_TOP}v{height:.2f}" for column in range(COLUMNS + 1))
    path += "".join(f"M{LEFT} {GRID_TOP + row * cell:.2f}h{INNER}" for row in range(row_count(medium) + 1))
    yield f'<path d="{path}" stroke="{PAPER}" stroke-width="1.1" fill="none"/>'
    for row in range(0, row_count(medium), 4):
        yield svg_text(LEFT - 10, GRID_TOP + (row + 0.75) * cell, f"{row * row_blocks:,}", 11, anchor="end")


def legend(medium: Picture, y: float) -> Iterator[str]:
    """What the colours are."""
    x = float(LEFT)
    entries = [((FRONT,), "format"), (tuple(colour(index, 24) for index in range(24)), "commits, the first to the last"), ((FREE,), "left")]
    if medium.capacity <= CELLS:
        entries.insert(2, (("dot",), "the last block of a commit, which makes it valid"))
    for fills, words in entries:
        width = 72 if len(fills) > 1 else 14
        if fills == ("dot",):
            yield box(x, y - 11, 14, 14, INK)
            yield f'<circle cx="{x + 7:.1f}" cy="{y - 4:.1f}" r="2.6" fill="#ffffff"/>'
        else:
            for index, fill in enumerate(fills):
                yield box(x + index * width / len(fills), y - 11, width / len(fills) + 0.3, 14, fill)
        yield svg_text(x + width + 8, y, words, 13, INK)
        x += width + 8 + 6.7 * len(words) + 28


def svg_of(medium: Picture) -> str:
    """The picture."""
    runs = runs_of(medium)
    bottom = GRID_TOP + row_count(medium) * INNER / COLUMNS
    height = round(bottom + 52)
    shapes = [
        f'<svg xmlns="http://www.w3.org/2000/svg" viewBox="0 0 {WIDTH} {height}" width="{WIDTH}" height="{height}" {FONT}>',
        f"<title>{escape(medium.label or medium.name)}: the medium, block by block</title>",
        f'<rect width="{WIDTH}" height="{height}" rx="12" fill="{PAPER}"/>',
        *head(medium),
        svg_text(LEFT, CHART_TOP - 16, "Files and directories after each commit, over the blocks of the medium", 13),
        *chart(medium), *strip(medium, runs), *grid(medium, runs), *legend(medium, bottom + 30), "</svg>",
    ]
    return "\n".join(shapes) + "\n"


def draw_map(image: str, program: str) -> str:
    """The picture of an image."""
    return svg_of(read_medium(image, program))
