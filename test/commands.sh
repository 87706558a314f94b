#!/bin/sh
# The built programs from outside, byte by byte: images, trees and commits, streams that fail, frames that are counted, clients.
#
# usage: test/commands.sh [--large] UDFBURN UDFBURND [NAME..]
# --large adds the longest file. A NAME is a module of test/commands, or a class or a test in one. Its last line is
# 'commands: N passed, M failed'. It takes Python 3.9 or later, and Linux.
set -eu

suite=commands
# shellcheck source=test/shell.sh
. "$(dirname "$0")/shell.sh"
if [ "${1:-}" = --large ]; then
    export LARGE=1
    shift
fi
[ $# -ge 2 ] || { echo 'usage: test/commands.sh [--large] UDFBURN UDFBURND [NAME..]' >&2; exit 2; }
UDFBURN=$(absolute "$1")
UDFBURND=$(absolute "$2")
export UDFBURN UDFBURND
shift 2
for program in "$UDFBURN" "$UDFBURND" python3; do
    if ! command -v "$program" > /dev/null; then
        echo "commands: $program is no program"
        echo 'commands: 0 passed, 1 failed'
        exit 1
    fi
done
cd "$(dirname "$0")"
PYTHONDONTWRITEBYTECODE=1 exec python3 -m commands "$@"
