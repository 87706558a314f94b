#!/bin/sh
# What the documents show, tried with the programs: the frames and answers of docs/PROTOCOL.md, and the walks of the documents.
#
# usage: test/documents.sh [UDFBURN [UDFBURND [DOCUMENT..]]]
# Without a DOCUMENT the walks are those of docs/OPERATIONS.md. Its last line is 'documents: N passed, M failed'.
set -u
cd "$(dirname "$0")/.." || exit 1
udfburn=${1:-crates/udfburn/out/udfburn}
udfburnd=${2:-crates/udfburnd/out/udfburnd}
if [ $# -gt 2 ]; then shift 2; else set -- docs/OPERATIONS.md; fi
room=$(mktemp -d) || exit 1
trap 'rm -rf "$room"' EXIT
trap 'exit 1' HUP INT PIPE TERM
export PYTHONDONTWRITEBYTECODE=1
python3 test/documents/documents.py "$udfburn" "$udfburnd" "$room" "$@"
