#!/bin/sh
# The Python client: its unit tests, and its tests over the built programs.
#
# usage: test/client.sh [--large] [UDFBURN UDFBURND]
# --large adds what takes long: all random losses of blocks.
# KILLS of the environment is how often clients and daemons are killed (200). TIMES=1 reports which tests take long. ANEW=1 gives
# each command a Python of its own.
# Its last line is 'client: N passed, M failed'. It takes a POSIX shell, Python 3.9 or later (PYTHON names another), a C
# compiler, cc, for the library by which the client's calls are followed, and xorriso.
set -u

here=$(cd "$(dirname "$0")/.." && pwd)

suite=client
# shellcheck source=test/shell.sh
. "$here/test/shell.sh"
if [ "${1:-}" = --large ]; then
    LARGE=1
    export LARGE
    shift
fi
UDFBURN=$(absolute "${1:-$here/crates/udfburn/out/udfburn}")
UDFBURND=$(absolute "${2:-$here/crates/udfburnd/out/udfburnd}")
export UDFBURN UDFBURND
for program in "$UDFBURN" "$UDFBURND"; do
    if ! [ -x "$program" ]; then
        echo "client: $program is no program"
        echo 'client: 0 passed, 1 failed'
        exit 1
    fi
done

in_memory 3000000
room=$(mktemp -d) || exit 1
trap 'rm -rf "$room"' EXIT
trap 'exit 1' HUP INT PIPE TERM
output=$room/output
command -v xorriso > "$output" || "$here/test/packages.sh" xorriso > "$output" 2>&1
# Where no compiled files are kept, each command compiles the client anew. From a copy that is compiled once it takes half the
# processor time, and the folder of the client stays as it is. Most commands take less again: see tests/forked.py there.
mkdir "$room/clients" && cp -R "$here/clients/python" "$room/clients/python" || exit 1
ln -s "$here/crates" "$here/docs" "$here/test" "$room" || exit 1
cd "$room/clients/python" || exit 1
"${PYTHON:-python3}" -m compileall -q . || exit 1
# A user's own ledger and compiled files are left alone.
status=0
UDFBURN_LEDGER=/nonexistent/ledger UDFBURN_SOCKET='' PYTHONDONTWRITEBYTECODE=1 PYTHONUTF8=1 \
    "${PYTHON:-python3}" -m tests > "$output" 2>&1 || status=$?
counted_in "$output" "$status"
