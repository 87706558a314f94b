#!/bin/sh
# Installs the programs, their manual pages, the units of systemd, the documents and, where they are there, the Python client and the
# C library.
#
# usage: ./install.sh PREFIX
#        ./install.sh --library PREFIX
#        ./install.sh --uninstall PREFIX
#
# PREFIX is an absolute path of plain letters, such as /usr/local, and so are LIBDIR, PYTHON_DIR and ZSH_DIR. DESTDIR is put before each
# path that is written, and is in none of the files. UDFBURN and UDFBURND name the programs, else those that `rt` built in crates/ are
# taken. PYTHON_DIR is the folder of the Python package, else PREFIX/lib/udfburn, and ZSH_DIR that in which zsh looks for completions,
# else PREFIX/share/zsh/site-functions. LIBRARY names the folder in which packaging/library/build.sh
# built the C library, which goes to LIBDIR, else PREFIX/lib; without it no library is installed. With --library it is installed alone, and
# what else is there stays. What was installed is listed in PREFIX/share/doc/udfburn/installed, which is what --uninstall removes, and
# prints. Images are never touched.
set -eu
# Folders that it makes are everybody's to read, as the files are.
umask 022
unset CDPATH
from=$PWD
cd "$(dirname "$0")"

usage() {
    echo 'usage: install.sh [--library | --uninstall] PREFIX' >&2
    exit 2
}

# absolute PATH: the path, seen from the caller's folder; nothing if it is empty.
absolute() {
    case $1 in
        '' | /*) printf '%s\n' "$1" ;;
        *) printf '%s\n' "$from/$1" ;;
    esac
}

# plain PATH: whether it is absolute and of plain letters.
plain() {
    case $1 in
        *[!A-Za-z0-9/._+-]*) return 1 ;;
        /*) ;;
        *) return 1 ;;
    esac
}

uninstall=
alone=
case ${1:-} in
    --uninstall) uninstall=1 && shift ;;
    --library) alone=1 && shift ;;
esac
[ $# -eq 1 ] || usage
plain "$1" || usage
prefix=${1%/}
root=$(absolute "${DESTDIR:-}")
libdir=${LIBDIR:-$prefix/lib}
python_dir=${PYTHON_DIR:-$prefix/lib/udfburn}
zsh_dir=${ZSH_DIR:-$prefix/share/zsh/site-functions}
for folder in "$libdir" "$python_dir" "$zsh_dir"; do
    plain "$folder" || { echo "install.sh: $folder is not an absolute path of plain letters" >&2; exit 2; }
done
documents=$prefix/share/doc/udfburn
list=$root$documents/installed

if [ -n "$uninstall" ]; then
    [ -f "$list" ] || { echo "install.sh: $list is missing" >&2; exit 1; }
    python=$python_dir/udfburn
    while IFS= read -r path; do
        case $path in */udfburn/__init__.py) python=${path%/*} ;; esac
        echo "$path"
        rm -f "$root$path"
    done < "$list"
    rm -f "$list"
    # What Python made of the package, and folders that are ours alone and empty now.
    [ ! -d "$root$python" ] || find "$root$python" -depth \( -path '*/__pycache__/*' -type f -exec rm -f {} + \) -o \
        \( -type d -exec rmdir {} + \) 2> /dev/null || true
    for folder in "$documents" "$prefix/lib/udfburn"; do
        [ ! -d "$root$folder" ] || find "$root$folder" -depth -type d -exec rmdir {} + 2> /dev/null || true
    done
    exit 0
fi

udfburn=$(absolute "${UDFBURN:-$PWD/crates/udfburn/out/udfburn}")
udfburnd=$(absolute "${UDFBURND:-$PWD/crates/udfburnd/out/udfburnd}")
library=$(absolute "${LIBRARY:-}")
[ -z "$alone" ] || [ -n "$library" ] || { echo 'install.sh: LIBRARY names the folder of the library' >&2; exit 2; }
for program in "$udfburn" "$udfburnd"; do
    [ -n "$alone" ] || { [ -f "$program" ] && [ -x "$program" ]; } || { echo "install.sh: $program is missing: build it with rt, or name it with UDFBURN and UDFBURND" >&2; exit 1; }
done
for file in libudfburn.so.0 libudfburn.a libudfburn_drive.a udfburn.h udfburn.pc; do
    [ -z "$library" ] || [ -f "$library/$file" ] ||
        { echo "install.sh: $library/$file is not there: build it by packaging/library/build.sh" >&2; exit 1; }
done
mkdir -p "$root$documents"
: > "$list.new"

# put MODE FILE PATH: a file, or the standard input for -.
put() {
    mkdir -p "$(dirname "$root$3")"
    rm -f "$root$3"
    cat "$2" > "$root$3"
    chmod "$1" "$root$3"
    echo "$3" >> "$list.new"
}

# put_library: the C library, its header, what pkg-config reads, and its page, which each of its functions leads to.
put_library() {
    put 644 "$library/libudfburn.so.0" "$libdir/libudfburn.so.0"
    rm -f "$root$libdir/libudfburn.so"
    ln -s libudfburn.so.0 "$root$libdir/libudfburn.so"
    echo "$libdir/libudfburn.so" >> "$list.new"
    put 644 "$library/libudfburn.a" "$libdir/libudfburn.a"
    put 644 "$library/libudfburn_drive.a" "$libdir/libudfburn_drive.a"
    put 644 "$library/udfburn.h" "$prefix/include/udfburn.h"
    sed -e "s|^prefix=.*|prefix=$prefix|" -e "s|^libdir=.*|libdir=$libdir|" "$library/udfburn.pc" | put 644 - "$libdir/pkgconfig/udfburn.pc"
    for example in examples/*.c; do
        [ ! -f "$example" ] || put 644 "$example" "$documents/$example"
    done
    put 644 man/udfburn.3 "$prefix/share/man/man3/udfburn.3"
    sed -n 's/^\.Fn \(udfburn_[a-z_]*\) .*/\1/p' man/udfburn.3 | sort -u > "$list.calls"
    while IFS= read -r call; do
        echo '.so man3/udfburn.3' | put 644 - "$prefix/share/man/man3/$call.3"
    done < "$list.calls"
    rm -f "$list.calls"
}

# put_starter NAME PACKAGE: a program that runs a package of ours. The current folder is kept out of Python's path, since a file there may
# have the name of a module. PYTHONSAFEPATH does that from Python 3.11 on, and the code does it for earlier ones. An interrupt while the
# package loads ends the program with 130, as later ones do.
put_starter() {
    put 755 - "$prefix/bin/$1" << END
#!/bin/sh
PYTHONSAFEPATH=1 PYTHONPATH=$python_dir\${PYTHONPATH:+:\$PYTHONPATH} exec python3 -c 'import sys
if not sys.path[0]: del sys.path[0]
try:
    from $2.cli import main
except KeyboardInterrupt:
    sys.exit(130)
sys.exit(main())' "\$@"
END
}

# put_programs: all but the library.
put_programs() {
    put 755 "$udfburn" "$prefix/bin/udfburn"
    put 755 "$udfburnd" "$prefix/bin/udfburnd"
    for page in man/*.[1-9]; do
        name=$(basename "$page")
        # The pages of the client, of the archive and of the library go with these.
        case $name in
            udfburn-client.1 | udfburn-archive.1) [ -d clients/python/udfburn ] || continue ;;
            udfburn.3) continue ;;
        esac
        put 644 "$page" "$prefix/share/man/man${page##*.}/$name"
    done
    sed "s|@bindir@|$prefix/bin|g" packaging/systemd/udfburnd@.service | put 644 - "$prefix/lib/systemd/system/udfburnd@.service"
    put 644 packaging/systemd/udfburn.conf "$prefix/lib/sysusers.d/udfburn.conf"
    # Each document keeps its folder, so that links between documents lead to them.
    for page in README.md CHANGELOG.md CONTRIBUTING.md SECURITY.md LICENSE-MIT LICENSE-APACHE docs/*.md docs/*.svg clients/python/README.md; do
        [ ! -f "$page" ] || put 644 "$page" "$documents/$page"
    done

    if [ -d clients/python/udfburn ]; then
        (cd clients/python && find udfburn -type f -name '*.py' -o -type f -name py.typed -o -type f -name '*.html' | LC_ALL=C sort) > "$list.python"
        while IFS= read -r file; do
            put 644 "clients/python/$file" "$python_dir/$file"
        done < "$list.python"
        rm -f "$list.python"
        put_starter udfburn-client udfburn.commands
        put_starter udfburn-archive udfburn.archive
        for unit in packaging/systemd/udfburn-archive-*; do
            sed "s|@bindir@|$prefix/bin|g" "$unit" | put 644 - "$prefix/lib/systemd/system/$(basename "$unit")"
        done
        # bash looks for a file of the command's name. One of zsh says itself which commands it completes.
        for name in udfburn-client udfburn-archive; do
            put 644 packaging/completion/udfburn.bash "$prefix/share/bash-completion/completions/$name"
        done
        put 644 packaging/completion/udfburn.zsh "$zsh_dir/_udfburn-client"
    fi
}

[ -n "$alone" ] || put_programs
[ -z "$library" ] || put_library

# What an earlier version had and this one has not, goes. Beside the library alone all else stays.
if [ -f "$list" ]; then
    while IFS= read -r path; do
        grep -Fqx -e "$path" "$list.new" && continue
        if [ -n "$alone" ]; then echo "$path" >> "$list.new"; else rm -f "$root$path"; fi
    done < "$list"
fi
mv "$list.new" "$list"
chmod 644 "$list"
