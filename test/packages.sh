#!/bin/sh
# What the suites take of Debian's packages, installed where we may: as root, where there is apt-get. One at a time, so that
# suites may ask side by side.
#
# usage: test/packages.sh --suites      those that a suite asks for whose command is not there
#        test/packages.sh PACKAGE..     these
#        test/packages.sh --lists       the lists of packages alone
# The status is 0 where all was installed. What cannot be had is reported by the suite that takes it.
set -u
PATH=$PATH:/usr/sbin:/sbin

# install PACKAGE..: installs them, where none has to go for it. The lock stays with this process alone.
install() {
    DEBIAN_FRONTEND=noninteractive apt-get -q -y --no-install-recommends --no-remove -o DPkg::Lock::Timeout=3000 install "$@" 9<&-
}

# update: takes in the lists of packages, after whoever does so just now, as a machine of its own accord.
update() {
    tries=600
    while told=$(LC_ALL=C apt-get -q update 2>&1 9<&-); echo "$told"; do
        case $told in *'Could not get lock'*) tries=$((tries - 1)) ;; *) return ;; esac
        [ "$tries" -gt 0 ] || return
        sleep 5
    done
}

[ $# -gt 0 ] || exit 2
case $1 in
    --lists) shift ;;
    --suites)
        shift
        for tool in gcc:gcc g++:g++ clang:clang valgrind:valgrind python3:python3 rsync:rsync mandoc:mandoc strace:strace lintian:lintian pkg-config:pkgconf strip:binutils mypy:mypy pyflakes3:pyflakes3 shellcheck:shellcheck systemd-analyze:systemd udfclient:udfclient \
            udfinfo:udftools ddrescue:gddrescue par2:par2 dvdisaster:dvdisaster blkid:util-linux mkfs.ext4:e2fsprogs mkfs.xfs:xfsprogs mkfs.btrfs:btrfs-progs mount:mount rclone:rclone \
            pg_ctlcluster:postgresql qemu-system-x86_64:qemu-system-x86 chromium:chromium xorriso:xorriso register-python-argcomplete:python3-argcomplete zsh:zsh fusermount3:fuse3 promtool:prometheus; do
            command -v "${tool%:*}" > /dev/null || set -- "$@" "${tool#*:}"
        done
        [ -e /usr/include/stdio.h ] || set -- "$@" libc6-dev
        [ -e /usr/include/libburn/libburn.h ] || set -- "$@" libburn-dev
        ls /usr/lib/*/qemu/block-iscsi.so > /dev/null 2>&1 || set -- "$@" qemu-block-extra
        [ -d /usr/lib/python3/dist-packages/psycopg ] || set -- "$@" python3-psycopg
        [ -d /usr/lib/python3/dist-packages/pathspec ] || set -- "$@" python3-pathspec
        ls /usr/lib/python3/dist-packages/pyfuse3.*.so > /dev/null 2>&1 || set -- "$@" python3-pyfuse3
        [ $# -gt 0 ] || exit 0
        ;;
esac
[ "$(id -u)" -eq 0 ] && command -v apt-get > /dev/null || exit 1
exec 9< "$0"
flock 9
if [ $# -gt 0 ] && install "$@"; then exit 0; fi
update
status=0
for package in "$@"; do
    install "$package" || status=1
done
exit "$status"
