#!/bin/sh
# Copies of an image that a daemon is writing: each is sound, and is a state of the run.
#
# usage: test/copies.sh [UDFBURN [UDFBURND [SEED [REQUESTS]]]]
# Its last line is 'copies: N passed, M failed'. rsync is installed where it is not there and we may.
set -u
cd "$(dirname "$0")/.." || exit 1
udfburn=${1:-crates/udfburn/out/udfburn}
udfburnd=${2:-crates/udfburnd/out/udfburnd}
[ $# -lt 2 ] && set -- "$udfburn" "$udfburnd"
shift 2
room=$(mktemp -d) || exit 1
trap 'rm -rf "$room"' EXIT
trap 'exit 1' HUP INT PIPE TERM
export PYTHONDONTWRITEBYTECODE=1

command -v rsync > "$room/which" || test/packages.sh rsync > "$room/apt.log" 2>&1
mkdir "$room/images"
python3 test/copies/copies.py "$udfburn" "$udfburnd" "$room/images" "$@"
