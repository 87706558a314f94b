#!/bin/sh
# The archive over many volumes, tried with real programs: PostgreSQL, rclone, xorriso, udfclient and a Linux kernel, processes that are
# killed, disks that are full, images that are damaged.
#
# usage: test/archive.sh [--large] [UDFBURN [NAME..]]
# --large adds what takes long: 200 kills, 3 GB, 10^7 rows. A NAME is a module of test/archive, as test_commands. Its last line is
# 'archive: N passed, M failed'. It takes Python 3.11 or later; PYTHON names another than Debian's, which has the driver of PostgreSQL.
# ANEW=1 of the environment gives each command a Python of its own.
set -u
home=$(cd "$(dirname "$0")" && pwd)
suite=archive
# shellcheck source=test/shell.sh
. "$home/shell.sh"
if [ "${1:-}" = --large ]; then
    LARGE=1
    export LARGE
    shift
fi
UDFBURN=${1:-$home/../crates/udfburn/out/udfburn}
[ $# -eq 0 ] || shift
UDFBURN=$(absolute "$UDFBURN")
export UDFBURN
if ! [ -x "$UDFBURN" ]; then
    echo "archive: $UDFBURN is no program"
    echo 'archive: 0 passed, 1 failed'
    exit 1
fi
PATH=$PATH:/usr/sbin:/sbin

[ -n "${LARGE:-}" ] || in_memory 4000000

python=${PYTHON:-/usr/bin/python3}
[ -x "$python" ] || python=python3
output=$(mktemp) || exit 1
trap 'rm -f "$output"' EXIT
trap 'exit 1' HUP INT PIPE TERM
cd "$home" || exit 1
command -v xorriso > "$output" || ./packages.sh xorriso > "$output" 2>&1
"$python" -c 'import pyfuse3' > "$output" 2>&1 && command -v fusermount3 > "$output" || ./packages.sh python3-pyfuse3 fuse3 > "$output" 2>&1

# A Linux kernel that reads UDF: this machine's, else Debian's in a machine of QEMU, as in test/readers.sh.
room=$(mktemp -d) || exit 1
trap 'rm -rf "$output" "$room"' EXIT
# Where no compiled files are kept, each command compiles the client anew. From a copy that is compiled once it takes half the
# processor time. Most commands take less again: each is a child of a process that has imported the client, as tests/forked.py has it.
PACKAGE=$room/python
export PACKAGE
client=$home/../clients/python
mkdir -p "$PACKAGE/tests" && cp -R "$client/udfburn" "$PACKAGE" && cp "$client/tests/__init__.py" "$client/tests/forked.py" "$client/tests/swaps.py" "$PACKAGE/tests" &&
    "$python" -m compileall -q "$PACKAGE" || exit 1
kernel() {
    ./packages.sh --lists > "$room/apt.log" 2>&1
    package=$(apt-cache depends linux-image-cloud-amd64 | sed -n 's/.*Depends: \(linux-image-[0-9].*\)/\1/p' | head -n 1)
    mkdir "$room/kernel" "$room/package"
    [ -n "$package" ] && (cd "$room/package" && apt-get -q download "$package" >> "$room/apt.log" 2>&1) &&
        dpkg-deb -x "$room/package/"*.deb "$room/kernel"
}
case "${1:-test_remotes}" in
    test_remotes*)
        if gcc -std=c11 -O2 -static readers/guest.c -o "$room/guest" 2> "$room/gcc.log"; then
            if "$python" readers/readers.py --may-mount "$room/guest" "$room"; then
                GUEST=$room/guest
                export GUEST
            elif command -v qemu-system-x86_64 > "$room/which" && kernel; then
                GUEST=$room/guest KERNEL=$room/kernel
                export GUEST KERNEL
            fi
        fi
        ;;
esac
status=0
PYTHONDONTWRITEBYTECODE=1 PYTHONUTF8=1 "$python" -m archive "$@" > "$output" 2>&1 || status=$?
counted_in "$output" "$status"
