#!/usr/bin/env python3
"""Where the tests went that are vectors now: each earlier test function, its assertions, and the cases that have it.

It compares the test functions that `base_tests`, `codec_tests` and `recover_tests` had before there were vectors, listed in
before.txt, with the cases of the vectors, the scenarios, the cases of programs.sh and the test functions of today. The last line
is 'count: N passed, M failed'. One fails if it is in none of these, and is not said to be dropped. So does a scenario or a case
that is named here and is not there.
"""

import pathlib
import re
import sys

HERE = pathlib.Path(__file__).resolve().parent
sys.path.insert(0, str(HERE))

from make import FILES

TOP = HERE.parents[1]
CRATES = ("base_tests", "codec_tests", "recover_tests")

# Tests that have another name now, and those of which a vector or a clause says all.
RENAMED = {
    "base_tests::drives::packets_hold_32_blocks": "base_tests::drives::a_run_goes_out_in_packets_of_32_blocks",
    "codec_tests::structures::parent_identifier": "codec_tests::values::fields_stand_where_they_are_written",
    "codec_tests::table::replies": "codec_tests::values::four_replies_are_kept",
    "codec_tests::directories::slices": "codec_tests::directories::identifiers_are_slices",
    "recover_tests::states::a_failed_read_is_told": "codec_tests::reads::a_failed_read_is_told",
    "recover_tests::sharing::what_two_states_share_is_read_once": "codec_tests::reads::what_two_states_share_is_read_once",
    "base_tests::messages::replies": "base_tests::messages::numbers_of_codes_and_faults",
    "base_tests::reading::nothing_behind_a_frame_that_is_too_long": "base_tests::reading::nothing_after_a_frame_that_is_too_long",
    "base_tests::messages::path_texts": "base_tests::messages::numbers_of_codes_and_faults",
}
DROPPED = {
    "codec_tests::entries::faults_have_numbers": "entry.txt has each fault by its number",
    "codec_tests::table::fault_numbers": "table.txt has each fault by its number",
}
# Tests that are scenarios now, with requests to the engine and to the plain program. A record that keeps only one reply, far from
# its first number, is no state after any requests: the engine reads one from a volume of the first version.
PLAYED = {
    "base_tests::plain::a_client_too_many": ["plain.txt the-sixty-fifth-client"],
    "base_tests::plain::a_directory_and_a_tree_are_full": ["plain.txt a-directory-and-a-tree-are-full"],
    "base_tests::plain::a_directory_moves_with_all_below_it": ["plain.txt a-move-keeps-unique-ids-and-moments"],
    "base_tests::plain::a_record_may_keep_one_reply": ["older.txt the-first-version-keeps-one-reply", "older.txt the-greatest-number",
                                                       "plain.txt what-a-number-calls-for"],
    "base_tests::plain::a_renamed_name_goes_last": ["plain.txt a-renamed-name-goes-last"],
    "base_tests::plain::a_repeat_gets_its_own_reply": ["plain.txt each-request-so-far-is-a-repeat"],
    "base_tests::plain::an_identity_is_never_given_again": ["plain.txt a-unique-id-is-never-given-again"],
    "base_tests::plain::four_replies_are_kept": ["plain.txt what-a-number-calls-for"],
    "base_tests::plain::refused_moves_removals_and_depths": ["plain.txt moves-removals-and-depths-are-refused"],
    "base_tests::plain::replies_after_one_directory": ["plain.txt refusals-after-one-directory"],
    "base_tests::plain::sixteen_names_are_the_most": ["plain.txt the-deepest-directory-gets-full"],
    "base_tests::plain::the_first_check_that_holds_gives_the_code": ["plain.txt the-first-check-that-holds-gives-the-code"],
}
# Tests that are cases of programs.sh now, by their names there or, where a name is made from the words, by their lines.
TOLD = {
    "base_tests::command_lines::other_words_of_the_command": ["no words", "too small a volume", "no_command apply", "no_command send"],
    "base_tests::command_lines::other_words_of_the_daemon": ["no_daemon i s t", "no_daemon i s --version"],
    "base_tests::command_lines::words_of_the_command": [
        "the first request", "300 blocks in a volume of", "the least capacity", "an image by this name",
        "a path of a file before the image", "the commits", "the state after each commit", "a request over the socket"],
    "base_tests::command_lines::words_of_the_daemon": [
        "the daemon ends without a connection", "start --connections 1000000", "the daemon ends after seven connections"],
}


def functions(source: str) -> "list[str]":
    """The test functions of a file."""
    return re.findall(r"^#\[test\]\nfn (\w+)", source, flags=re.MULTILINE)


def before() -> "dict[str, int]":
    """The test functions that there were, each with its assertions."""
    lines = (HERE / "before.txt").read_text().splitlines()
    return {test: int(number) for test, number in (line.split() for line in lines if not line.startswith("#"))}


def today() -> "set[str]":
    return {f"{crate}::{path.stem}::{name}" for crate in CRATES for path in (TOP / "crates" / crate / "src").glob("*.rt")
            for name in functions(path.read_text())}


def cases() -> "dict[str, dict[str, int]]":
    """The cases of each test by file."""
    found: "dict[str, dict[str, int]]" = {}
    for made in FILES:
        vectors = made()
        for test, count in vectors.of.items():
            found.setdefault(test, {})[vectors.name] = count
    return found


def elsewhere() -> "tuple[dict[str, list[str]], list[str]]":
    """The scenarios and the cases of programs.sh of each test, and those that are not there."""
    data = TOP / "crates/scenarios/data"
    there = {f"{path.name} {name}" for path in data.glob("*.txt")
             for name in re.findall(r"^scenario (\S+)$", path.read_text(), flags=re.MULTILINE)}
    programs = (TOP / "test/programs.sh").read_text()
    found: "dict[str, list[str]]" = {}
    absent = []
    for test, scenarios in PLAYED.items():
        found[test] = [f"the scenario {scenario}" for scenario in scenarios if scenario in there]
        absent += [f"the scenario {scenario}" for scenario in scenarios if scenario not in there]
    for test, names in TOLD.items():
        found[test] = [f"programs.sh: {name}" for name in names if name in programs]
        absent += [f"programs.sh: {name}" for name in names if name not in programs]
    return found, absent


def main() -> int:
    old, left, made = before(), today(), cases()
    others, absent = elsewhere()
    missing, kept = [], 0
    for test, count in sorted(old.items()):
        places = [f"{name} {number}" for name, number in made.get(test, {}).items()]
        stays = test if test in left else RENAMED.get(test)
        if stays in left:
            kept += 1
            places.append("a test" if stays == test else f"the test {stays}")
        places += others.get(test, [])
        if test in DROPPED:
            places.append("dropped: " + DROPPED[test])
        if not places:
            missing.append(test)
        print(f"{test}: {count} assertions -> {', '.join(places) or 'NOWHERE'}")
    unknown = [test for test in [*made, *others] if test not in old and not test.startswith("docs::")]
    print(f"before: {len(old)} test functions with {sum(old.values())} assertions in their own lines")
    print(f"now: {sum(vectors().cases for vectors in FILES)} cases in {len(FILES)} files, and {len(left)} test functions, of which {kept} were there")
    for test in missing:
        print(f"count: FAILED: {test} is in no case and no test")
    for test in unknown:
        print(f"count: FAILED: cases name {test}, which was no test")
    for place in absent:
        print(f"count: FAILED: {place} is not there")
    failed = len(missing) + len(unknown) + len(absent)
    print(f"count: {len(old) - len(missing)} passed, {failed} failed")
    return 1 if failed else 0


if __name__ == "__main__":
    sys.exit(main())
