#!/bin/sh
# Volumes that the programs wrote, as other programs read them: a Linux kernel's udf, udfinfo, blkid and udfclient. Every path,
# size, moment and byte is compared with what the requests say, after the last commit and, by lastblock=, after earlier ones.
# On one of them is a bag of photographs and a film of 130 MB. The client and the daemon that stored it were killed on the way,
# and sha256sum checks it where it is mounted.
#
# usage: test/readers.sh [--large] [UDFBURN [UDFBURND]]
# --large makes the film 700 MB long, and takes more photographs. ALONE=1 of the environment tries that volume alone.
# Its last line is 'readers: N passed, M failed'. What is not there is installed from Debian's packages where we may; what cannot
# be had is said, and is a failure where CI=true. The kernel is this machine's where it has udf, else Debian's in a machine of
# QEMU, which needs neither a kernel module nor a right of this one. FORCE_QEMU=1 takes that in any case.
set -u
cd "$(dirname "$0")/.." || exit 1
film=130
albums=lomiri-wallpapers-16.04
if [ "${1:-}" = --large ]; then
    film=700
    albums="$albums lomiri-wallpapers-20.04"
    shift
fi
udfburn=${1:-crates/udfburn/out/udfburn}
udfburnd=${2:-crates/udfburnd/out/udfburnd}
room=$(mktemp -d) || exit 1
trap 'rm -rf "$room"' EXIT
trap 'exit 1' HUP INT PIPE TERM
PATH=$PATH:/usr/sbin:/sbin
export PYTHONDONTWRITEBYTECODE=1
absent=

# install PACKAGE..: installs them, where we may.
install() {
    test/packages.sh "$@" >> "$room/apt.log" 2>&1
}

# have COMMAND PACKAGE..: whether the command is there, once its packages are.
have() {
    wanted=$1
    shift
    command -v "$wanted" > "$room/which" || install "$@" && command -v "$wanted" > "$room/which" && return
    echo "readers: not tried: $wanted is not there"
    absent="$absent $wanted"
    return 1
}

# compile: makes the program that mounts, without libraries, since it is alone in the machine.
compile() {
    have gcc gcc libc6-dev || return 1
    gcc -std=c11 -O2 -Wall -Wextra -static test/readers/guest.c -o "$room/guest" && return
    install libc6-dev && gcc -std=c11 -O2 -Wall -Wextra -static test/readers/guest.c -o "$room/guest" && return
    echo 'readers: not tried: guest.c is not compiled'
    absent="$absent gcc"
    return 1
}

# unpack PACKAGE FOLDER: unpacks a package of Debian's into a folder; nothing of it is installed.
unpack() {
    rm -rf "$room/package"
    mkdir -p "$room/package" "$2"
    [ -n "$1" ] && (cd "$room/package" && apt-get -q download "$1" >> "$room/apt.log" 2>&1) && dpkg-deb -x "$room/package/"*.deb "$2"
}

# kernel: unpacks Debian's kernel for virtual machines, which has udf as a module.
kernel() {
    package=$(apt-cache depends linux-image-cloud-amd64 | sed -n 's/.*Depends: \(linux-image-[0-9].*\)/\1/p' | head -n 1)
    unpack "$package" "$room/kernel" && return
    echo 'readers: not tried: no kernel with udf'
    absent="$absent kernel"
    return 1
}

# sums: finds a sha256sum without libraries, for the machine.
sums() {
    if unpack busybox-static "$room/busybox"; then
        for busybox in "$room/busybox/bin/busybox" "$room/busybox/usr/bin/busybox"; do
            [ ! -x "$busybox" ] || return 0
        done
    fi
    echo 'readers: not tried: sha256sum in the machine'
    absent="$absent busybox"
    return 1
}

have python3 python3 || exit 1
install --lists
set --
for tool in udfclient:udfclient udfinfo:udftools blkid:util-linux; do
    have "${tool%:*}" "${tool#*:}" && set -- "$@" "${tool%:*}"
done
[ $# -eq 0 ] || set -- --tools "$@"
if compile; then
    if [ "${FORCE_QEMU:-}" != 1 ] && python3 test/readers/readers.py --may-mount "$room/guest" "$room"; then
        set -- "$@" --guest "$room/guest" --here
    elif have qemu-system-x86_64 qemu-system-x86 && kernel; then
        set -- "$@" --guest "$room/guest" --kernel "$room/kernel"
        if sums; then set -- "$@" --sha256sum "$busybox"; fi
    fi
fi
for album in $albums; do
    if ! unpack "$album" "$room/photographs"; then
        echo "readers: not tried: the photographs of $album"
        absent="$absent $album"
    fi
done
if [ -d "$room/photographs" ]; then set -- "$@" --photographs "$room/photographs"; fi
if [ "${ALONE:-}" = 1 ]; then set -- "$@" --film-alone; fi
if [ "${CI:-}" = true ] && [ -n "$absent" ]; then
    set -- "$@" --absent $absent
fi
mkdir "$room/images"
python3 test/readers/readers.py "$udfburn" "$udfburnd" "$room/images" --film "$film" "$@"
