#!/bin/sh
# Faults put under the built programs: failing calls, kills, lost power, odd files, memory that runs out, many clients.
#
# usage: test/faults.sh [UDFBURN UDFBURND [MODULE..]]
# APPLY_GROUPS of the environment is the path of the program that answers in groups; without one, what tries it is left out.
# Its last line is 'faults: N passed, M failed, K skipped'. It takes Python 3.9 or later and gcc; what needs root or a feature of the
# kernel that is not there says that it was left out, and why. With CI=true only what the machine truly lacks may be left out.
set -eu

home=$(cd "$(dirname "$0")" && pwd)
suite=faults
# shellcheck source=test/shell.sh
. "$home/shell.sh"
if [ $# -ge 2 ]; then
    udfburn=$(absolute "$1")
    udfburnd=$(absolute "$2")
    shift 2
else
    udfburn=$home/../crates/udfburn/out/udfburn
    udfburnd=$home/../crates/udfburnd/out/udfburnd
fi
if [ -n "${APPLY_GROUPS:-}" ]; then
    APPLY_GROUPS=$(absolute "$APPLY_GROUPS")
    export APPLY_GROUPS
fi
for tool in python3 gcc; do
    if ! command -v "$tool" > /dev/null; then
        echo "faults: FAILED: $tool is not installed"
        echo 'faults: 0 passed, 1 failed, 0 skipped'
        exit 1
    fi
done
cd "$home"
PATH=$PATH:/usr/sbin:/sbin
PYTHONDONTWRITEBYTECODE=1 exec python3 -m faults "$udfburn" "$udfburnd" "$@"
