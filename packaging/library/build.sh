#!/bin/sh
# Builds the C library: libudfburn.a, libudfburn_drive.a, libudfburn.so.0 with its link, udfburn.h and udfburn.pc.
#
# usage: packaging/library/build.sh DIR [--unproved | --core FILE]
# The core is what `rt lib` proves in crates/capi. With --unproved it is built without any proof: that shows nothing about
# contracts, and is for trials alone. With --core it is FILE, the archive or object of a core that was built before, as by
# packaging/library/core.sh. It takes the Rattle kit, a C compiler (CC, or cc; CFLAGS are added to its words) and binutils.
set -eu

usage() {
    echo 'usage: packaging/library/build.sh DIR [--unproved | --core FILE]' >&2
    exit 2
}

core=
case ${2:-} in
    '') [ $# -eq 1 ] || usage ;;
    --unproved) [ $# -eq 2 ] || usage ;;
    --core)
        [ $# -eq 3 ] || usage
        [ -f "$3" ] || usage
        core=$(realpath "$3")
        ;;
    *) usage ;;
esac
unset CDPATH
mkdir -p "$1"
out=$(cd "$1" && pwd)
cd "$(dirname "$0")/../.."
room=$(mktemp -d) || exit 1
trap 'rm -rf "$room"' EXIT
trap 'exit 1' HUP INT PIPE TERM
kit=$(dirname "$(dirname "$(realpath "$(command -v rt)")")")
version=$(sed -n 's/^__version__ = "\(.*\)"$/\1/p' clients/python/udfburn/__init__.py)
cc=${CC:-cc}
# What the soname says: a program that was linked with one libudfburn.so.0 runs with every later one.
soname=libudfburn.so.0

if [ "${2:-}" = --unproved ]; then
    echo 'build.sh: nothing is proved here: this library is for trials alone' >&2
    core=$room/core.o
    packaging/library/unproved.sh "$core"
elif [ -z "$core" ]; then
    (cd crates/capi && rt lib)
    core=$PWD/crates/capi/out/libcapi.a
fi

# compile NAME..: the files of library/. CFLAGS cannot set visibility or link-time optimisation, since the names are read from these
# objects below.
compile() {
    for name in "$@"; do
        # shellcheck disable=SC2086
        "$cc" -std=c99 -O2 -g0 -Wall -Wextra -fPIC -ffunction-sections -fdata-sections -fstack-protector-strong \
            ${CFLAGS:-} -fvisibility=default -fno-lto -DUDFBURN_VERSION="\"$version\"" -c "library/$name.c" -o "$room/$name.o"
    done
}
compile udfburn guard group files requests put entries room told view port drive drive_check vat_icb sg_io mmc open_mmc

# What the header declares, apart from what is only in the library with drives.
names() {
    sed -n 's/^[a-z].*[ *]\(udfburn_[a-z_]*\)(.*/\1/p' library/udfburn.h | LC_ALL=C sort -u
}
names > "$room/names"
grep -v -e drive -e vat_icb -e mmc "$room/names" > "$room/names.plain"

# merge OUT.o NAMES OBJECT..: one object of these, the core and what they take of the kit, in which these names alone are seen.
merge() {
    merged=$1
    shown=$2
    shift 2
    ld -r -o "$room/merged.o" "$@" "$kit/c/libos_c.a" "$kit/c/liblibc_c.a"
    objcopy --keep-global-symbols="$shown" --strip-debug --remove-section=.comment --remove-section=.llvm_addrsig "$room/merged.o" "$merged"
}

# The core as one object, with its calls on a file under other names, which library/port.c has.
mkdir "$room/parts"
case $core in
    *.a) (cd "$room/parts" && ar x "$core") ;;
    *) cp "$core" "$room/parts/" ;;
esac
ld -r -o "$room/core.all.o" "$room/parts"/*
set --
for call in pread pwrite lseek fsync ftruncate flock posix_fadvise close; do
    set -- "$@" --redefine-sym "$call=udfburn_port_$call"
done
objcopy "$@" "$room/core.all.o" "$room/core.port.o"

set -- "$room/udfburn.o" "$room/guard.o" "$room/group.o" "$room/files.o" "$room/requests.o" "$room/put.o" "$room/entries.o" \
    "$room/room.o" "$room/told.o" "$room/view.o" "$room/port.o" "$room/core.port.o"
merge "$room/libudfburn.o" "$room/names.plain" "$@"
merge "$room/libudfburn_drive.o" "$room/names" "$@" "$room/drive.o" "$room/drive_check.o" "$room/vat_icb.o" \
    "$room/sg_io.o" "$room/mmc.o" "$room/open_mmc.o"
rm -f "$out"/libudfburn.a "$out"/libudfburn_drive.a "$out"/libudfburn.so*
ar rcsD "$out/libudfburn.a" "$room/libudfburn.o"
ar rcsD "$out/libudfburn_drive.a" "$room/libudfburn_drive.o"
# shellcheck disable=SC2086
"$cc" -shared -o "$out/$soname" -Wl,-soname,"$soname" -Wl,--version-script=library/udfburn.map -Wl,--gc-sections \
    -Wl,-z,relro,-z,now,-z,noexecstack,-z,defs -Wl,--as-needed ${CFLAGS:-} "$room/libudfburn_drive.o" -lpthread
strip --strip-unneeded "$out/$soname"

ln -s "$soname" "$out/libudfburn.so"
cp library/udfburn.h "$out/udfburn.h"
sed "s|@version@|$version|" packaging/library/udfburn.pc.in > "$out/udfburn.pc"
