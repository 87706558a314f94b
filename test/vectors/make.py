#!/usr/bin/env python3
"""Writes the files of vectors, and what the program `vectors` prints of them.

    make.py [check]

With the word `check` it writes nothing, and reports each file that is not as it would be written.
"""

import pathlib
import sys

HERE = pathlib.Path(__file__).resolve().parent
sys.path.insert(0, str(HERE))

import answers
import descriptors
import directories
import entries
import fronts
import frames
import tables
import tags
import texts
import volumes

CRATE = HERE.parents[1] / "crates/vectors"
FILES = [tags.tags, tags.timestamps, texts.texts, entries.entries, descriptors.descriptors, directories.directories, tables.tables,
         fronts.fronts, frames.frames, answers.answers, volumes.volumes]


def written() -> "dict[pathlib.Path, str]":
    """Each file of the crate that is written here: the vectors, the words of the program, and what it prints where none differs."""
    files: "dict[pathlib.Path, str]" = {}
    printed, cases, count = "", 0, 0
    for made in FILES:
        vectors = made()
        files[CRATE / "data" / vectors.name] = vectors.text
        answers_ = sum(" -> " in line or line.endswith("->") for line in vectors.lines())
        printed += f"{vectors.name}: {vectors.cases} cases, {answers_} answers, 0 differ\n"
        cases, count = cases + vectors.cases, count + answers_
    files[CRATE / "args"] = "".join(f"{made().name}\n" for made in FILES)
    files[CRATE / "stdout"] = printed + f"{cases} cases, {count} answers, 0 differ\n"
    return files


def main(words: "list[str]") -> int:
    files = written()
    if words != ["check"]:
        for path, text in files.items():
            path.write_text(text)
        return 0
    failed = 0
    for path, text in files.items():
        if not path.is_file() or path.read_text() != text:
            print(f"vectors: FAILED: {path} is not as test/vectors/make.py writes it")
            failed += 1
    print(f"vectors: {len(files) - failed} passed, {failed} failed")
    return 1 if failed else 0


if __name__ == "__main__":
    sys.exit(main(sys.argv[1:]))
