"""What the documents show, tried: PROTOCOL.md's bytes, and the walks of other documents, each line of them.

usage: documents.py UDFBURN UDFBURND ROOM DOCUMENT..

A walk is a block of indented lines of which the first begins with `$ `: commands, and after each what it prints. The walks of a
document are run one after another, in one folder and one bash.
"""

from __future__ import annotations

import os
import re
import shlex
import shutil
import signal
import socket
import subprocess
import sys
import time
from pathlib import Path
from typing import Dict, List, Tuple

HOME = Path(__file__).resolve().parent.parent.parent
SPAN = re.compile(r"`([^`]*)`|(\w+) zero bytes")
# Seconds after which what did not come counts as missing: more than any machine takes.
PATIENCE = 300
NUMBERS = {word: at for at, word in enumerate("no one two three four five six seven eight nine ten".split())}

passed = 0
failed = 0


def check(name: str, found: object, wanted: object) -> None:
    global passed, failed
    if found == wanted:
        passed += 1
        return
    failed += 1
    print("documents: FAILED: %s\n    found  %r\n    wanted %r" % (name, found, wanted))


def section(text: str, title: str) -> str:
    """What is below a heading, up to the next one of its rank."""
    mark = "\n## %s\n" % title
    if mark not in text:
        return ""
    return re.split(r"\n## ", text.split(mark, 1)[1])[0]


def octets(text: str) -> bytes:
    """The bytes of a text: those of its spans of hexadecimal pairs, and zeros where it says how many."""
    out = b""
    for match in SPAN.finditer(text):
        if match.group(2) is not None:
            out += bytes(NUMBERS[match.group(2)])
        elif re.fullmatch(r"[0-9A-F]{2}( [0-9A-F]{2})*", match.group(1)):
            out += bytes.fromhex(match.group(1))
    return out


def rows(text: str) -> List[List[str]]:
    """The rows of the tables of a text, without their heads."""
    lines = [line for line in text.splitlines() if line.startswith("|")]
    cells = [[cell.strip() for cell in line.strip("|").split("|")] for line in lines]
    return [row for at, row in enumerate(cells) if not set("".join(row)) <= set("-: ") and
            not (at + 1 < len(cells) and set("".join(cells[at + 1])) <= set("-: "))]


def halves(line: str) -> Tuple[str, str]:
    """What is before the first colon that is in no span, and what after it."""
    within = False
    for at, letter in enumerate(line):
        within ^= letter == "`"
        if letter == ":" and not within:
            return line[:at], line[at:]
    return line, ""


def example(text: str) -> List[Tuple[str, bytes, bytes]]:
    """Names, frames and answers of the example: its table's bytes are the first frame."""
    out = []
    first = b"".join(octets(row[0]) for row in rows(text))
    for line in text.splitlines():
        if line.startswith("|") or "`" not in line:
            continue
        before, behind = halves(line)
        if first and "the answer is" in before:
            out.append((line, first, octets(before)))
            first = b""
        elif octets(before) and octets(behind):
            out.append((line, octets(before), octets(behind)))
    return out


def conversation(text: str) -> List[Tuple[str, bytes, bytes]]:
    return [(row[0], octets(row[1]), octets(row[2])) for row in rows(text)]


def run(*words: str, given: bytes = b"") -> bytes:
    return subprocess.run(words, input=given, stdout=subprocess.PIPE, timeout=PATIENCE).stdout


def connect(path: str) -> socket.socket:
    """A connection, once the daemon listens."""
    until = time.monotonic() + PATIENCE
    while True:
        line = socket.socket(socket.AF_UNIX, socket.SOCK_STREAM)
        try:
            line.settimeout(PATIENCE)
            line.connect(path)
            return line
        except OSError:
            line.close()
            if time.monotonic() > until:
                raise
            time.sleep(0.02)


def read_answer(line: socket.socket) -> bytes:
    """The bytes of one frame, or of what came of it."""
    out = b""
    while len(out) < 4 or len(out) < 4 + int.from_bytes(out[:4], "little"):
        piece = line.recv(65536)
        if not piece:
            break
        out += piece
    return out


def protocol(udfburn: str, udfburnd: str, room: Path) -> None:
    text = (HOME / "docs/PROTOCOL.md").read_text()
    shown = example(section(text, "An example"))
    # The last of them ends the conversation, so it comes after all others.
    talk = shown[:-1] + conversation(section(text, "A conversation")) + shown[-1:]
    check("PROTOCOL.md has an example and a conversation", len(shown) > 4 and len(talk) > len(shown) + 9, True)
    for name, sent, wanted in talk[:-1]:
        check("the length of: %s" % name, (len(sent) - 4, len(wanted) - 4),
              (int.from_bytes(sent[:4], "little"), int.from_bytes(wanted[:4], "little")))
    together = b"".join(wanted for _, _, wanted in talk)
    stream = b"".join(sent for _, sent, _ in talk)
    check("the conversation with a volume in memory", run(udfburn, "apply", "mem:3000", given=stream + stream), together)

    # A process for each message: what a volume keeps, it keeps on its image.
    image = str(room / "protocol.img")
    run(udfburn, "format", image, "DISC", "0", "3000")
    for name, sent, wanted in talk:
        check("an image: %s" % name, run(udfburn, "apply", image, given=sent), wanted)

    # A daemon, one message after another.
    image = str(room / "daemon.img")
    path = str(room / "socket")
    run(udfburn, "format", image, "DISC", "0", "3000")
    daemon = subprocess.Popen([udfburnd, image, path])
    try:
        with connect(path) as line:
            for name, sent, wanted in talk:
                line.sendall(sent)
                check("a daemon: %s" % name, read_answer(line), wanted)
            check("the conversation is over", line.recv(1), b"")
    finally:
        daemon.send_signal(signal.SIGKILL)
        daemon.wait()


def walks(text: str) -> List[Tuple[str, str]]:
    """The commands of a document's walks, each with what it prints."""
    out: List[Tuple[str, str]] = []
    within = False
    for line in text.splitlines():
        if line.startswith("    $ "):
            within = True
            out.append((line[6:], ""))
        elif within and line.startswith("    "):
            out[-1] = (out[-1][0], out[-1][1] + line[4:] + "\n")
        else:
            within = False
    return out


def walk(document: Path, tools: Path, room: Path) -> None:
    steps = walks(document.read_text())
    check("%s has a walk" % document.name, len(steps) > 0, True)
    room.mkdir()
    script = "exec 2>&1\n"
    for command, _ in steps:
        script += command + "\n"
        if command.rstrip().endswith("&"):
            # Who reads on types slower than a daemon starts: it takes connections by then.
            last = shlex.quote(command.rstrip(" &").split()[-1])
            script += "tries=3000; until udfburn send %s < /dev/null 2> /dev/null || [ $tries = 0 ]; " % last
            script += "do tries=$((tries - 1)); sleep 0.1; done\n"
        script += "printf '\\001'\n"
    environment = dict(os.environ, PATH="%s:%s" % (tools, os.environ["PATH"]), LC_ALL="C.UTF-8", TZ="UTC")
    environment["HOME"] = str(room)
    with open(room.parent / (room.name + ".output"), "w+b") as output:
        shell = subprocess.Popen(["bash"], stdin=subprocess.PIPE, stdout=output, cwd=room, env=environment, start_new_session=True)
        try:
            shell.communicate(script.encode(), timeout=2 * PATIENCE)
        except subprocess.TimeoutExpired:
            shell.kill()
            shell.wait()
        # What was started in the background ends with the walk.
        try:
            os.killpg(shell.pid, signal.SIGKILL)
        except ProcessLookupError:
            pass
        output.seek(0)
        found = output.read().decode(errors="replace").split("\x01")
    for at, (command, wanted) in enumerate(steps):
        told = found[at] if at < len(found) - 1 else None
        # A file that ends without a line's end is shown with one.
        if told is not None and told and not told.endswith("\n"):
            told += "\n"
        check("%s: %s" % (document.name, command), told, wanted)


def make_tools(udfburn: str, udfburnd: str, tools: Path) -> None:
    """A folder with the programs under their names, as an installation has them."""
    tools.mkdir()
    os.symlink(udfburn, tools / "udfburn")
    os.symlink(udfburnd, tools / "udfburnd")
    programs: Dict[str, str] = {}
    if (HOME / "clients/python").is_dir():
        programs["udfburn-client"] = "#!/bin/sh\nPYTHONPATH=%s exec python3 -m udfburn \"$@\"\n" % shlex.quote(
            str(HOME / "clients/python"))
    if shutil.which("xxd") is None:
        programs["xxd"] = (
            "#!/usr/bin/env python3\nimport sys\ndata = sys.stdin.buffer.read()\nfor at in range(0, len(data), 16):\n"
            "    row = data[at : at + 16]\n    pairs = ' '.join(row[i : i + 2].hex() for i in range(0, len(row), 2))\n"
            "    print('%08x: %-39s  %s' % (at, pairs, ''.join(chr(b) if 32 <= b < 127 else '.' for b in row)))\n")
    for name, text in programs.items():
        (tools / name).write_text(text)
        (tools / name).chmod(0o755)


def main() -> int:
    udfburn, udfburnd = (os.path.abspath(word) for word in sys.argv[1:3])
    room = Path(sys.argv[3])
    protocol(udfburn, udfburnd, room)
    make_tools(udfburn, udfburnd, room / "tools")
    for at, document in enumerate(sys.argv[4:]):
        walk(Path(document), room / "tools", room / ("walk%d" % at))
    print("documents: %d passed, %d failed" % (passed, failed))
    return 0 if failed == 0 and passed > 0 else 1


if __name__ == "__main__":
    sys.exit(main())
