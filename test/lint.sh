#!/bin/sh
# What static checkers say of the Python and shell of the repository (mypy --strict, pyflakes, shellcheck), whether each edit that
# must fail still applies to the code, and whether the plan of the client is that of its imports.
#
# usage: test/lint.sh
# Its last line is 'lint: N passed, M failed'. The checkers are installed where they are missing and we may; what cannot be had is
# reported, and is a failure where CI=true.
set -u
cd "$(dirname "$0")/.." || exit 1
top=$PWD
room=$(mktemp -d) || exit 1
trap 'rm -rf "$room"' EXIT
trap 'exit 1' HUP INT PIPE TERM
suite=lint
# shellcheck source=test/shell.sh
. test/shell.sh

# have COMMAND PACKAGE: whether the command is there, once its package is.
have() {
    command -v "$1" > "$room/which" || test/packages.sh "$2" > "$room/apt.log" 2>&1
    command -v "$1" > "$room/which" && return
    echo "lint: not tried: $1 is missing"
    if [ "${CI:-}" = true ]; then failed=$((failed + 1)); fi
    return 1
}

# typed FOLDER PATH WORD..: mypy's view of modules or packages of a folder, with more folders in PATH.
typed() {
    folder=$1
    export MYPYPATH="$2"
    shift 2
    cd "$folder" && mypy --strict --no-error-summary --cache-dir "$room/mypy" "$@"
}

# each typed in a shell of its own, since it changes the folder.
apart() {
    (typed "$@")
}

# all_are_looked_at: whether each Python file is in a folder that mypy looks at below.
all_are_looked_at() {
    find . -name '*.py' ! -path '*/out/*' | sed 's|^\./||' | grep -v -E '^(clients/python/(udfburn|tests)/|clients/python/bench(_calls)?\.py$|test/(commands|faults|vectors|archive|library|bad_day|copies|disc|readers|documents|mutants)/|test/(protocol|modules|runner)\.py$|bench/[a-z]+/)' > "$room/others"
    cat "$room/others"
    ! [ -s "$room/others" ]
}

if have mypy mypy; then
    holds 'no Python file is left out' all_are_looked_at
    holds 'the client is typed' apart clients/python . -p udfburn
    holds "the client's tests are typed" apart clients/python ".:$top/test" -p tests
    holds "the client's measurements are typed" apart clients/python . bench.py bench_calls.py
    holds 'the fault tests are typed' apart test . -p faults -p commands
    holds 'what writes the vectors is typed' apart test/vectors . make.py count.py
    holds 'the tests of the archive are typed' apart test "$top/test:$top/clients/python:$top/test/readers" --config-file ../clients/python/pyproject.toml --python-version 3.11 -p archive
    holds 'the tests of the library are typed' apart test "$top/test:$top/clients/python" --config-file ../clients/python/pyproject.toml -p library
    holds 'the tests of damaged images are typed' apart test/bad_day "$top/clients/python:$top/test" --config-file ../../clients/python/pyproject.toml bad_day.py images.py
    others=$top/test:$top/test/readers:$top/bench/apply:$top/bench/beside:$top/clients/python
    holds 'the other tests are typed' apart "$top" "$others" --config-file clients/python/pyproject.toml test/protocol.py test/modules.py test/runner.py test/copies/*.py test/readers/*.py test/documents/*.py
    holds 'the tests of discs are typed' apart test/disc "$top/test/disc:$top/test/readers:$top/clients/python" --config-file ../../clients/python/pyproject.toml discs.py packets.py real.py
    holds 'what burns discs in the machine is typed' apart test/disc "$top/clients/python" --config-file ../../clients/python/pyproject.toml --python-version 3.11 guest.py
    holds 'what changes the client is typed' apart test/mutants "$top/test/mutants" --config-file ../../clients/python/pyproject.toml --python-version 3.11 mutants.py changes.py rooms.py traced.py worker.py sitecustomize.py
    # Some of these have the same name, so each folder is looked at apart.
    for folder in bench/*/; do
        set -- "$folder"*.py
        [ ! -e "$1" ] || holds "$folder is typed" apart "$top" "$others" "$@"
    done
fi
if have pyflakes3 pyflakes3; then
    holds 'nothing in Python is unused' pyflakes3 .
fi
if have shellcheck shellcheck; then
    for file in .ci/run test/quick install.sh packaging/deb/build.sh packaging/deb/postinst packaging/deb/prerm packaging/library/*.sh packaging/completion/udfburn.bash test/*.sh bench/run bench/small bench/*/run bench/library/beside; do
        holds "$file is clean" shellcheck -x -S warning "$file"
    done
fi
holds 'each edit applies to the code' test/edits.sh --outdated
holds 'docs/ARCHITECTURE.md has the modules of the client as they import each other' test/modules.py check
counted
