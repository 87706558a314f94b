#!/bin/sh
# Discs: volumes that are burned onto a CD-R, a DVD-R, a DVD+R and a BD-R, read back, and mounted by a Linux kernel without options;
# and what is said where a disc cannot be burned. The recorders are emulated (test/disc/recorder.py).
#
# usage: test/disc.sh [UDFBURN]
#        test/disc.sh --packets LIBRARY [UDFBURN]
#        test/disc.sh --device DEVICE LIBRARY
# --packets stores files one by one with the C library, which is in the folder LIBRARY: without a kernel, where power is lost and writes
# fail, and at the same time in the machine. --device tries the blank disc in a real drive, which is then no longer blank (docs/DISCS.md).
# The recorders answer over iSCSI on this machine alone, and a virtual machine of QEMU takes them for its drives: it starts once for
# all tests. What is not there is installed from Debian's packages where we may; what cannot be had is said, and is a failure where
# CI=true. Its last line is 'disc: N passed, M failed'.
set -u
home=$(cd "$(dirname "$0")" && pwd)
suite=disc
# shellcheck source=test/shell.sh
. "$home/shell.sh"
library=
device=
packets=
case ${1:-} in
    --packets) [ $# -ge 2 ] && library=$2 && shift 2 ;;
    --device) [ $# -ge 3 ] && device=$2 && library=$3 && shift 3 ;;
esac
case ${1:-} in -*)
    echo 'usage: test/disc.sh [--packets LIBRARY] [UDFBURN] | --device DEVICE LIBRARY' >&2
    exit 2
    ;;
esac
if [ -n "$library" ]; then
    suite=packets
    [ -f "$library/libudfburn.so.0" ] || { echo "disc: $library has no C library" >&2; exit 2; }
    library=$(absolute "$library")
fi
room=$(mktemp -d) || exit 1
trap '[ -z "$packets" ] || kill "$packets"; rm -rf "$room"' EXIT
trap 'exit 1' HUP INT PIPE TERM
PATH=$PATH:/usr/sbin:/sbin
export PYTHONDONTWRITEBYTECODE=1
python=${PYTHON:-/usr/bin/python3}
[ -x "$python" ] || python=python3
if [ -n "$device" ]; then
    "$python" "$home/disc/real.py" "$device" "$library" "$room"
    exit
fi
udfburn=$(absolute "${1:-$home/../crates/udfburn/out/udfburn}")
if ! [ -x "$udfburn" ]; then
    echo "disc: $udfburn is no program"
    echo 'disc: 0 passed, 1 failed'
    exit 1
fi

# install PACKAGE..: installs them, where we may.
install() {
    "$home/packages.sh" "$@" >> "$room/apt.log" 2>&1
}

# added FILE WHERE: prints what a program printed that counts by itself, and adds what it counted.
added() {
    sed '$d' "$1"
    last=$(tail -n 1 "$1")
    case $last in
        *' passed, '*' failed')
            passed=$((passed + ${last%% *}))
            last=${last#*, }
            failed=$((failed + ${last%% *}))
            ;;
        *) fail "$2: $last" ;;
    esac
}

# end_packets: waits for what is tried without a kernel, where it is.
end_packets() {
    [ -n "$packets" ] || return 0
    wait "$packets"
    packets=
    added "$room/packets.output" 'without a kernel'
}

# left_out WHAT: says what is not there, which is a failure in CI.
left_out() {
    echo "disc: not tried: $1"
    if [ "${CI:-}" = true ]; then fail "$1"; fi
    end_packets
    counted
    exit
}

# kernel: unpacks Debian's kernel for virtual machines; nothing of it is installed.
kernel() {
    install --lists
    package=$(apt-cache depends linux-image-cloud-amd64 | sed -n 's/.*Depends: \(linux-image-[0-9].*\)/\1/p' | head -n 1)
    mkdir "$room/kernel" "$room/package"
    [ -n "$package" ] && (cd "$room/package" && apt-get -q download "$package" >> "$room/apt.log" 2>&1) &&
        dpkg-deb -x "$room/package/"*.deb "$room/kernel"
}

if [ -n "$library" ]; then
    command -v cc > "$room/which" || install gcc libc6-dev
    mkdir "$room/packets"
    "$python" "$home/disc/packets.py" "$udfburn" "$library" "$room/packets" > "$room/packets.output" 2>&1 &
    packets=$!
fi

for tool in qemu-system-x86_64:qemu-system-x86 xorriso:xorriso ldd:libc-bin; do
    command -v "${tool%:*}" > "$room/which" || install "${tool#*:}"
    command -v "${tool%:*}" > "$room/which" || left_out "${tool%:*} is not there"
done
# QEMU has its part for iSCSI in a package of its own.
ls /usr/lib/*/qemu/block-iscsi.so > "$room/which" 2>&1 || install qemu-block-extra
ls /usr/lib/*/qemu/block-iscsi.so > "$room/which" 2>&1 || left_out 'QEMU has no iSCSI'
kernel || left_out 'no kernel with udf'
mkdir "$room/room"
status=0
"$python" "$home/disc/discs.py" "$udfburn" "$room/kernel" "$room/room" ${library:+"$library"} > "$room/output" 2>&1 || status=$?
if [ -z "$library" ]; then
    counted_in "$room/output" "$status"
    exit
fi
added "$room/output" 'in the machine'
end_packets
counted
