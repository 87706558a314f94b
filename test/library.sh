#!/bin/sh
# The C library, from C, C++ and Python: what its calls do, that wrong arguments and faults give a status, and what it shows.
#
# usage: test/library.sh [--large] CORE UDFBURN UDFBURND [MODULE..]
# CORE is the core of the library: crates/capi/out/libcapi.a, which `rt lib` proves, or what packaging/library/unproved.sh built.
# --large tries changed images for minutes, and more drives that flip bits. Its last line is
# 'library: N passed, M failed, K skipped'. It takes Python 3.9 or later, gcc, g++, clang, binutils, valgrind and libburn-dev.
set -eu

suite=library
# shellcheck source=test/shell.sh
. "$(dirname "$0")/shell.sh"
if [ "${1:-}" = --large ]; then
    export LARGE=1
    shift
fi
[ $# -ge 3 ] || { echo 'usage: test/library.sh [--large] CORE UDFBURN UDFBURND [MODULE..]' >&2; exit 2; }
core=$(absolute "$1")
udfburn=$(absolute "$2")
udfburnd=$(absolute "$3")
shift 3
cd "$(dirname "$0")"
test=$PWD
missing=
for tool in python3:python3 gcc:gcc g++:g++ clang:clang nm:binutils valgrind:valgrind; do
    command -v "${tool%:*}" > /dev/null || missing="$missing ${tool#*:}"
done
[ -e /usr/include/libburn/libburn.h ] || missing="$missing libburn-dev"
# shellcheck disable=SC2086
if [ -n "$missing" ] && ! "$test/packages.sh" $missing > /dev/null 2>&1; then
    echo "library: FAILED: not installed:$missing"
    echo 'library: 0 passed, 1 failed, 0 skipped'
    exit 1
fi
PYTHONDONTWRITEBYTECODE=1 exec python3 -m library "$core" "$udfburn" "$udfburnd" "$@"
