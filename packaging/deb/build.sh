#!/bin/sh
# Makes Debian packages of what install.sh installs, and prints their paths: udfburn, and where there is the C library libudfburn0
# and libudfburn-dev.
#
# usage: packaging/deb/build.sh FOLDER
# UDFBURN and UDFBURND name the programs, and LIBRARY the folder of the C library, as for install.sh. It needs dpkg-deb, and strip and
# objdump of binutils.
set -eu
[ $# -eq 1 ] || { echo 'usage: build.sh FOLDER' >&2; exit 2; }
unset CDPATH
mkdir -p "$1"
folder=$(cd "$1" && pwd)
# absolute FILE: its path from any folder.
absolute() {
    echo "$(cd "$(dirname "$1")" && pwd)/$(basename "$1")"
}
[ -z "${UDFBURN:-}" ] || UDFBURN=$(absolute "$UDFBURN")
[ -z "${UDFBURND:-}" ] || UDFBURND=$(absolute "$UDFBURND")
[ -z "${LIBRARY:-}" ] || LIBRARY=$(absolute "$LIBRARY")
cd "$(dirname "$0")/../.."
version=$(sed -n 's/^__version__ = "\(.*\)"$/\1/p' clients/python/udfburn/__init__.py)
# The date of the release, as CHANGELOG.md has it beside the version; of an unreleased one, today.
released=$(sed -n "s/^## \[\{0,1\}$version\]\{0,1\} - \([0-9-]*\)$/\1/p" CHANGELOG.md)
architecture=$(dpkg --print-architecture)
maintainer='Yashkobal maintainers <maintainers@users.noreply.yashkobal.example>'
work=$(mktemp -d)
trap 'rm -rf "$work"' EXIT
trap 'exit 1' HUP INT PIPE TERM
umask 022

# documents PACKAGE: what Debian's policy asks of each package, under names of its own.
documents() {
    folder_of=$work/$1/usr/share/doc/$1
    mkdir -p "$folder_of"
    install -m 644 packaging/deb/copyright "$folder_of/copyright"
    gzip -9nc CHANGELOG.md > "$folder_of/NEWS.gz"
    gzip -9n > "$folder_of/changelog.gz" << END
udfburn ($version) unstable; urgency=medium

  * See NEWS.gz.

 -- $maintainer  $(LC_ALL=C date -u -R -d "${released:-today}")
END
    chmod 644 "$folder_of/NEWS.gz" "$folder_of/changelog.gz"
}

# libc FILE..: the newest symbols of the system's library that these ask for say which one they need.
libc() {
    newest=
    if command -v objdump > "$work/which"; then
        newest=$(objdump -T "$@" 2> "$work/which" | sed -n 's/.*(\{0,1\}GLIBC_\([0-9.]*\).*/\1/p' | sort -V | tail -n 1)
    fi
    echo "libc6${newest:+ (>= $newest)}"
}

# make_package PACKAGE: makes it of its folder, and of the fields on the standard input.
make_package() {
    root_of=$work/$1
    mkdir -p "$root_of/DEBIAN"
    {
        echo "Package: $1"
        echo "Version: $version"
        echo "Architecture: $architecture"
        echo "Maintainer: $maintainer"
        echo "Installed-Size: $(du -sk "$root_of/usr" | cut -f 1)"
        echo 'Priority: optional'
        cat
    } > "$root_of/DEBIAN/control"
    (cd "$root_of" && find usr -type f | LC_ALL=C sort | xargs md5sum > DEBIAN/md5sums)
    package=$folder/${1}_${version}_$architecture.deb
    dpkg-deb --root-owner-group --build "$root_of" "$package" >&2
    echo "$package"
}

programs() {
    room=$work/udfburn
    mkdir "$room"
    LIBRARY='' DESTDIR=$room PYTHON_DIR=/usr/lib/python3/dist-packages ZSH_DIR=/usr/share/zsh/vendor-completions ./install.sh /usr
    # The package's own list is what dpkg keeps.
    rm "$room/usr/share/doc/udfburn/installed"
    find "$room/usr/share/man" -type f -exec gzip -9n {} +
    strip --strip-unneeded --remove-section=.comment --remove-section=.note "$room/usr/bin/udfburn" "$room/usr/bin/udfburnd"
    rm "$room/usr/share/doc/udfburn/LICENSE-MIT" "$room/usr/share/doc/udfburn/LICENSE-APACHE" "$room/usr/share/doc/udfburn/CHANGELOG.md"
    documents udfburn
    client=
    [ ! -d "$room/usr/lib/python3" ] || client='
Recommends: python3 (>= 3.9)
Suggests: fuse3, python3-argcomplete, python3-pathspec, python3-psycopg, python3-pyfuse3, rclone, xorriso'
    mkdir "$room/DEBIAN"
    for script in postinst prerm; do
        install -m 755 "packaging/deb/$script" "$room/DEBIAN/$script"
    done
    make_package udfburn << END
Depends: $(libc "$room/usr/bin/udfburn" "$room/usr/bin/udfburnd")$client
Section: utils
Description: one growing UDF file tree on blocks that are written once
 udfburn keeps a UDF 2.01 file tree with a virtual allocation table on an
 image, as on a CD-R. Each request takes effect with the last block of its
 commit, so that a power cut leaves the state before it or the state after it.
 udfburnd serves such an image on a Unix socket.
END
}

# move PACKAGE PATH..: moves these from what was installed to a package.
move() {
    to=$work/$1
    shift
    for path in "$@"; do
        mkdir -p "$to$(dirname "$path")"
        mv "$work/installed$path" "$to$path"
    done
}

libraries() {
    libdir=/usr/lib/$(dpkg-architecture -qDEB_HOST_MULTIARCH 2> "$work/which" || cc -dumpmachine)
    mkdir "$work/installed"
    DESTDIR=$work/installed LIBDIR=$libdir ./install.sh --library /usr
    find "$work/installed/usr/share/man" -type f -exec gzip -9n {} +
    move libudfburn0 "$libdir/libudfburn.so.0"
    move libudfburn-dev "$libdir/libudfburn.so" "$libdir/libudfburn.a" "$libdir/libudfburn_drive.a" "$libdir/pkgconfig/udfburn.pc" \
        /usr/include/udfburn.h /usr/share/man/man3
    mkdir -p "$work/libudfburn-dev/usr/share/doc/libudfburn-dev/docs"
    mv "$work/installed/usr/share/doc/udfburn/examples" "$work/libudfburn-dev/usr/share/doc/libudfburn-dev/"
    install -m 644 docs/EMBEDDING.md docs/PROTOCOL.md "$work/libudfburn-dev/usr/share/doc/libudfburn-dev/docs/"
    strip --strip-unneeded --remove-section=.comment --remove-section=.note "$work/libudfburn0$libdir/libudfburn.so.0"
    documents libudfburn0
    documents libudfburn-dev
    mkdir "$work/libudfburn0/DEBIAN"
    # A program may use a function that an earlier version has not.
    echo "libudfburn 0 libudfburn0 (>= $version)" > "$work/libudfburn0/DEBIAN/shlibs"
    echo 'activate-noawait ldconfig' > "$work/libudfburn0/DEBIAN/triggers"
    chmod 644 "$work/libudfburn0/DEBIAN"/*
    make_package libudfburn0 << END
Depends: $(libc "$work/libudfburn0$libdir/libudfburn.so.0")
Multi-Arch: same
Section: libs
Description: UDF file trees on blocks that are written once - shared library
 libudfburn writes files to a UDF 2.01 volume on write-once media, in the
 process of its caller. Each request that is answered is on the medium. A
 volume lies in a file, in memory, or on a drive that the caller gives.
END
    make_package libudfburn-dev << END
Depends: libudfburn0 (= $version)
Multi-Arch: same
Section: libdevel
Description: UDF file trees on blocks that are written once - development files
 libudfburn writes files to a UDF 2.01 volume on write-once media, in the
 process of its caller.
 .
 This package has the header, the archives to link statically, what pkg-config
 reads, the manual page and examples.
END
}

programs
[ -z "${LIBRARY:-}" ] || libraries
