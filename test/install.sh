#!/bin/sh
# The installation and the Debian packages, each in an empty root; the manual pages, and the units of systemd.
#
# usage: test/install.sh [UDFBURN [UDFBURND [LIBRARY]]]
# LIBRARY is the folder in which packaging/library/build.sh built the C library; without it what concerns it is left out.
# Its last line is 'install: N passed, M failed'. mandoc, strace, lintian and systemd's commands are installed where they are not there
# and we may; what cannot be had is said, and is a failure where CI=true.
set -u
cd "$(dirname "$0")/.." || exit 1
suite=install
# shellcheck source=test/shell.sh
. test/shell.sh
UDFBURN=$(absolute "${1:-crates/udfburn/out/udfburn}")
UDFBURND=$(absolute "${2:-crates/udfburnd/out/udfburnd}")
export UDFBURN UDFBURND
library=
if [ $# -ge 3 ]; then library=$(cd "$3" && pwd); fi
room=$(mktemp -d) || exit 1
trap 'rm -rf "$room"' EXIT
trap 'exit 1' HUP INT PIPE TERM
PATH=$PATH:/usr/sbin:/sbin
unset DESTDIR PYTHON_DIR ZSH_DIR LIBRARY LIBDIR
# absent NAME: what cannot be tried.
absent() {
    echo "install: not tried: $1 is not there"
    if [ "${CI:-}" = true ]; then failed=$((failed + 1)); fi
}

# need COMMAND PACKAGE: installs it where it is not there and we may, and says where it is still absent.
need() {
    command -v "$1" > "$room/which" || test/packages.sh "$2" > "$room/apt.log" 2>&1
    command -v "$1" > "$room/which" || absent "$1"
}

# same WANTED COMMAND..: whether the command prints the lines of the file WANTED, and nothing else.
same() {
    wanted=$1
    shift
    "$@" > "$room/found" && diff "$wanted" "$room/found"
}

# files ROOT: the files below it with their modes.
files() {
    (cd "$1" && find . -type f -printf '%m %P\n' | LC_ALL=C sort -k 2)
}

# silent COMMAND..: whether the command succeeds, and prints nothing.
silent() {
    "$@" > "$room/said" 2>&1 && ! [ -s "$room/said" ] || { cat "$room/said"; return 1; }
}

# expected PREFIX: what an installation has, by what the repository has.
expected() {
    client=
    [ ! -d clients/python/udfburn ] || client=1
    {
        echo "755 $1/bin/udfburn"
        echo "755 $1/bin/udfburnd"
        echo "644 $1/lib/systemd/system/udfburnd@.service"
        echo "644 $1/lib/sysusers.d/udfburn.conf"
        for page in README.md CHANGELOG.md CONTRIBUTING.md SECURITY.md LICENSE-MIT LICENSE-APACHE docs/*; do
            case $page in *.md | *.svg | LICENSE-*) echo "644 $1/share/doc/udfburn/$page" ;; esac
        done
        echo "644 $1/share/doc/udfburn/installed"
        echo "644 $1/share/man/man1/udfburn.1"
        echo "644 $1/share/man/man5/udfburn-protocol.5"
        echo "644 $1/share/man/man5/udfburn-volume.5"
        echo "644 $1/share/man/man8/udfburnd.8"
        if [ -n "$client" ]; then
            echo "644 $1/share/man/man1/udfburn-client.1"
            echo "755 $1/bin/udfburn-client"
            echo "644 $1/share/man/man1/udfburn-archive.1"
            echo "755 $1/bin/udfburn-archive"
            for unit in add@.service add@.timer check@.service check@.timer failed@.service; do echo "644 $1/lib/systemd/system/udfburn-archive-$unit"; done
            echo "644 $1/share/bash-completion/completions/udfburn-client"
            echo "644 $1/share/bash-completion/completions/udfburn-archive"
            echo "644 $1/share/zsh/site-functions/_udfburn-client"
            (cd clients/python && find udfburn -name '*.py' -o -name py.typed -o -name '*.html') | sed "s|^|644 $1/lib/udfburn/|"
            echo "644 $1/share/doc/udfburn/clients/python/README.md"
        fi
    } | LC_ALL=C sort -k 2
}

# linked ROOT: whether each file that a document below it links to is there. The header and the examples are the library's.
linked() {
    (
        cd "$1" && find . -name '*.md' | while IFS= read -r page; do
            grep -o '](\.*[A-Za-z][A-Za-z0-9_./-]*[)#]' "$page" | sed 's/^](//; s/[)#]$//' | grep -v '/library/\|/examples/' |
                while IFS= read -r link; do [ -e "$(dirname "$page")/$link" ] || echo "$page: $link"; done
        done
    ) > "$room/lost"
    ! [ -s "$room/lost" ] || { cat "$room/lost"; return 1; }
}

# Words.
for words in '' 'relative' '/a /b'; do
    status=0
    ./install.sh $words > "$room/told" 2>&1 || status=$?
    holds "install.sh refuses '$words'" [ "$status" -eq 2 ]
done
status=0
./install.sh '/a b' > "$room/told" 2>&1 || status=$?
holds 'install.sh refuses a space' [ "$status" -eq 2 ]
for setting in LIBDIR=lib 'LIBDIR=/a|b' PYTHON_DIR=python 'PYTHON_DIR=/a b' ZSH_DIR=zsh; do
    status=0
    env "$setting" ./install.sh "$room/none" > "$room/told" 2>&1 || status=$?
    holds "install.sh refuses $setting" [ "$status" -eq 2 ]
    holds "nothing is installed for $setting" [ ! -e "$room/none" ]
done
holds 'install.sh names a program that is a folder' sh -c '! UDFBURN=$1 ./install.sh "$1/none" && [ ! -e "$1/none" ]' - "$room"
holds 'install.sh names a program that is not there' sh -c '! UDFBURN=/nowhere ./install.sh "$1/none" && [ ! -e "$1/none" ]' - "$room"

# An administrator's umask, under which a user could neither run the client nor read a manual page.
mkdir "$room/masked"
holds 'it installs under another umask' sh -c 'umask 077 && DESTDIR="$1/masked" ./install.sh /usr/local' - "$room"
printf '755\n' > "$room/wanted"
holds 'everybody may look into its folders' same "$room/wanted" sh -c \
    'find "$1/masked/usr" -type d -printf "%m\n" | sort -u' - "$room"

# An empty root: all is below DESTDIR, and nothing says its name.
mkdir "$room/root"
holds 'it installs below DESTDIR' env DESTDIR="$room/root" ./install.sh /usr/local
expected usr/local > "$room/wanted"
holds 'it installs these files' same "$room/wanted" files "$room/root"
holds 'links between the documents lead to them' linked "$room/root/usr/local/share/doc/udfburn"
holds 'no file has the name of DESTDIR' sh -c '! grep -rF "$1" "$1/root"' - "$room"
holds 'the program is the one that was built' cmp "$UDFBURN" "$room/root/usr/local/bin/udfburn"
holds 'the daemon is the one that was built' cmp "$UDFBURND" "$room/root/usr/local/bin/udfburnd"
holds 'the unit starts the installed daemon' grep -q '^ExecStart=/usr/local/bin/udfburnd ' \
    "$room/root/usr/local/lib/systemd/system/udfburnd@.service"
mkdir "$room/root/usr/local/share/doc/udfburn/mine"
echo old > "$room/root/usr/local/share/doc/udfburn/OLD.md"
echo /usr/local/share/doc/udfburn/OLD.md >> "$room/root/usr/local/share/doc/udfburn/installed"
holds 'it installs again' env DESTDIR="$room/root" ./install.sh /usr/local
holds 'what an earlier version had is gone' same "$room/wanted" files "$room/root"
grep -v '/installed$' "$room/wanted" | sed 's|^[0-9]* |/|' > "$room/removed"
DESTDIR=$room/root ./install.sh --uninstall /usr/local > "$room/listed" 2> "$room/errors"
holds 'the removal is listed' sh -c 'LC_ALL=C sort "$1/listed" | diff "$1/removed" -' - "$room"
holds 'nothing is left of it' [ -z "$(files "$room/root")" ]
holds 'nor of its folders' [ ! -e "$room/root/usr/local/share/doc/udfburn" ]
holds 'a removal of nothing is refused' sh -c '! DESTDIR="$1/root" ./install.sh --uninstall /usr/local' - "$room"

# What is named relatively is in the folder of who installs, also where the shell says to which folder it went.
mkdir "$room/elsewhere"
cp "$UDFBURN" "$room/elsewhere/udfburn"
cp "$UDFBURND" "$room/elsewhere/udfburnd"
in_elsewhere() {
    script=$PWD/$1
    shift
    (cd "$room/elsewhere" && CDPATH=.:.. DESTDIR=root UDFBURN=udfburn UDFBURND=./udfburnd "$script" "$@")
}
holds 'it installs what is named relatively' in_elsewhere install.sh /usr/local
expected usr/local > "$room/wanted"
holds 'it installs to where DESTDIR is named' same "$room/wanted" files "$room/elsewhere/root"

# The same for programs that are built without a proof. A kit that ends at once is enough to see where they would be.
mkdir -p "$room/kit/bin"
printf '#!/bin/sh\nexit 1\n' > "$room/kit/bin/rt"
chmod +x "$room/kit/bin/rt"
PATH=$room/kit/bin:$PATH in_elsewhere test/unproved.sh udfburn trial/udfburn > "$room/told" 2>&1
holds 'a program is built where it is named' [ -d "$room/elsewhere/trial" ]

# What Python made of a package in a folder of one's own goes with it, also where the folder is not named again.
holds 'it installs the client elsewhere' env DESTDIR="$room/root" PYTHON_DIR=/opt/python ./install.sh /usr/local
if [ -d clients/python/udfburn ]; then
    mkdir "$room/root/opt/python/udfburn/__pycache__"
    echo made > "$room/root/opt/python/udfburn/__pycache__/client.pyc"
fi
DESTDIR=$room/root ./install.sh --uninstall /usr/local > "$room/listed" 2> "$room/errors"
holds 'nothing is left of the client' [ -z "$(files "$room/root")" ]

# interrupted NAME: whether an installed program that is interrupted while it loads a module ends with 130 and prints nothing.
interrupted() {
    status=0
    PYTHONPATH=$room/interrupted "$prefix/bin/$1" --help > "$room/told" 2>&1 || status=$?
    cat "$room/told"
    [ "$status" -eq 130 ] && [ ! -s "$room/told" ]
}

# completed LINE: what bash completes a line by, with the system's Python.
completed() {
    PATH=$prefix/bin:/usr/bin:/bin bash -c '. "$1/share/bash-completion/completions/${2%% *}" || exit 1
        COMP_LINE=$2 COMP_POINT=${#2} COMP_TYPE=9
        _python_argcomplete "${2%% *}" && printf "%s\n" "${COMPREPLY[@]}"' - "$prefix" "$1"
}

# completes LINE WORD: whether bash completes a line by this word, or by nothing.
completes() {
    printf '%s\n' "$2" > "$room/wanted"
    same "$room/wanted" completed "$1"
}

# completed_by_zsh: whether zsh completes a line, and a second one in the same shell.
completed_by_zsh() {
    PATH=$prefix/bin:/usr/bin:/bin timeout 600 zsh -f -c '
        zmodload zsh/zpty
        zpty shell "TERM=dumb zsh -f -i"
        zpty -w shell "fpath=($1/share/zsh/site-functions \$fpath); autoload -Uz compinit; compinit -D -u; print READY\${:-.}"
        zpty -r shell printed "*READY.*"
        zpty -w -n shell "udfburn-client sal"$'"'\\t'"'
        zpty -r shell printed "*salvage *"
        zpty -w -n shell "--acc"$'"'\\t'"'
        zpty -r shell printed "*--accept-unproved *"
    ' - "$prefix"
}

# refuses_to_complete: whether a command that is asked to complete without argcomplete does nothing.
refuses_to_complete() {
    mkdir "$room/without"
    echo 'raise ImportError' > "$room/without/argcomplete.py"
    status=0
    _ARGCOMPLETE=1 PYTHONPATH=$room/without "$prefix/bin/udfburn-client" format "$room/without/disc.img" > "$room/told" 2>&1 || status=$?
    cat "$room/told"
    [ "$status" -eq 1 ] && [ ! -s "$room/told" ] && [ ! -e "$room/without/disc.img" ]
}

# A prefix of one's own: the programs run from there.
prefix=$room/prefix
holds 'it installs into a prefix' ./install.sh "$prefix"
holds 'an installed program formats' "$prefix/bin/udfburn" format "$room/disc.img" DISC 0 3000
printf 'sound 0\n' > "$room/wanted"
holds 'an installed program checks' same "$room/wanted" "$prefix/bin/udfburn" check "$room/disc.img"
if [ -d clients/python/udfburn ] && [ -f clients/python/udfburn/__main__.py ]; then
    if command -v python3 > "$room/which"; then
        holds 'the installed client says its words' "$prefix/bin/udfburn-client" --help
        mkdir "$room/modules"
        for module in argparse json socket udfburn; do echo 'raise SystemExit(9)' > "$room/modules/$module.py"; done
        holds 'it takes no module from the folder where it is started' sh -c 'cd "$1/modules" && "$2/bin/udfburn-client" --help' - "$room" "$prefix"
        mkdir "$room/interrupted"
        echo 'raise KeyboardInterrupt' > "$room/interrupted/argparse.py"
        holds 'an interrupt while it loads ends it with 130 and no traceback' interrupted udfburn-client
        holds 'without argcomplete nothing is completed, and nothing run' refuses_to_complete
        need register-python-argcomplete python3-argcomplete
        if command -v register-python-argcomplete > "$room/which" && command -v bash > "$room/which"; then
            holds 'bash completes a command' completes 'udfburn-client sal' 'salvage '
            holds 'it completes an option' completes 'udfburn-client salvage --acc' '--accept-unproved '
            holds 'it completes a choice' completes 'udfburn-client finish --medium d' 'dvd '
            holds 'it completes a local file' completes 'udfburn-client ls --image CONTRIB' 'CONTRIBUTING.md '
            holds 'it takes no local file for a path of the volume' completes 'udfburn-client ls CONTRIB' ''
            holds "it completes the archive's" completes 'udfburn-archive put' 'put-away '
            need zsh zsh
            if command -v zsh > "$room/which"; then holds 'zsh completes the same' completed_by_zsh; fi
        fi
        # Its page has the options that its commands have.
        for command in put get ls mkdir mv rm verify resume map format status check seal salvage log finish burn mount; do
            "$prefix/bin/udfburn-client" "$command" --help
        done | grep -o -e '--[a-z][a-z-]*' | sort -u > "$room/wanted"
        sed -n -e 's/\.It.* Fl -help.*//' -e 's/\.\{0,1\}[A-Z][a-z] Fl -/\n--/' -e 's/ Fl -/\n--/g' -e p man/udfburn-client.1 |
            grep -o -e '^--[a-z][a-z-]*' > "$room/page"
        grep -q '^\.Fl -help' man/udfburn-client.1 && echo --help >> "$room/page"
        holds 'its page has its options' same "$room/wanted" sort -u "$room/page"
        if python3 -c 'import tomllib' 2> "$room/which"; then
            holds 'the installed archive says its words' "$prefix/bin/udfburn-archive" --help
            holds 'an interrupt while the archive loads ends it with 130 and no traceback' interrupted udfburn-archive
            holds 'the archive takes no module from there' sh -c 'cd "$1/modules" && "$2/bin/udfburn-archive" --help' - "$room" "$prefix"
            for command in init add ls find history where get status close check repair rebuild adopt report mount; do
                "$prefix/bin/udfburn-archive" "$command" --help
            done | grep -o -e '--[a-z][a-z-]*' | sort -u > "$room/wanted"
            sed 's/Fl -\([a-z]\)/\n--\1/g' man/udfburn-archive.1 | grep -o -e '^--[a-z][a-z-]*' | grep -v -x -e --version | sort -u > "$room/page"
            holds "the archive's page has its options" same "$room/wanted" sort -u "$room/page"
        fi
    else
        absent python3
    fi
fi

# The Debian package.
if command -v dpkg-deb > "$room/which"; then
    holds 'a package is made' packaging/deb/build.sh "$room/deb"
    holds 'a package is made of what is named relatively' in_elsewhere packaging/deb/build.sh debs
    holds 'it is there' [ -n "$(find "$room/elsewhere/debs" -name '*.deb')" ]
    package=$(find "$room/deb" -name '*.deb')
    version=$(sed -n 's/^## \[\([0-9][0-9.]*\)\] - .*/\1/p' CHANGELOG.md | head -n 1)
    printf 'Package: udfburn\nVersion: %s\nArchitecture: %s\n' "$version" "$(dpkg --print-architecture)" > "$room/wanted"
    holds 'it says what it is' same "$room/wanted" dpkg-deb -f "$package" Package Version Architecture
    expected usr | sed -e '/doc\/udfburn\/installed$/d' -e 's|CHANGELOG.md$|NEWS.gz|' -e '/doc\/udfburn\/LICENSE-/d' -e 's|\(share/man/.*\)|\1.gz|' \
        -e 's|usr/lib/udfburn/udfburn|usr/lib/python3/dist-packages/udfburn|' -e 's|zsh/site-functions|zsh/vendor-completions|' > "$room/listed"
    printf '644 usr/share/doc/udfburn/%s\n' changelog.gz copyright | LC_ALL=C sort -k 2 - "$room/listed" > "$room/wanted"
    dpkg-deb -x "$package" "$room/unpacked"
    holds 'it has these files' same "$room/wanted" files "$room/unpacked"
    holds 'all of them are root'"'"'s' sh -c '! dpkg-deb -c "$1" | grep -v " root/root "' - "$package"
    need lintian lintian
    if command -v lintian > "$room/which"; then
        holds 'lintian has nothing to say' silent lintian --allow-root "$package"
    fi
    if [ "$(id -u)" -eq 0 ]; then
        # dpkg's own installation, in a root that has nothing but its list of packages, and the users that a system has.
        mkdir -p "$room/system/var/lib/dpkg/info" "$room/system/var/lib/dpkg/updates" "$room/system/etc"
        : > "$room/system/var/lib/dpkg/status"
        : > "$room/system/var/lib/dpkg/available"
        printf 'root:x:0:0:root:/root:/bin/sh\n' > "$room/system/etc/passwd"
        printf 'root:x:0:\n' > "$room/system/etc/group"
        holds 'dpkg installs it' dpkg --root="$room/system" --log=/dev/null --force-script-chrootless,depends -i "$package"
        strip --strip-unneeded --remove-section=.comment --remove-section=.note -o "$room/stripped" "$UDFBURN"
        holds 'the installed program is the one that was built' cmp "$room/stripped" "$room/system/usr/bin/udfburn"
        holds 'the user of the unit is there' grep -q '^udfburn:' "$room/system/etc/passwd"
        mkdir -p "$room/system/var/lib/udfburn"
        echo image > "$room/system/var/lib/udfburn/archive.img"
        if [ -d "$room/system/usr/lib/python3" ]; then
            mkdir "$room/system/usr/lib/python3/dist-packages/udfburn/__pycache__"
            echo made > "$room/system/usr/lib/python3/dist-packages/udfburn/__pycache__/client.pyc"
        fi
        holds 'dpkg removes it' dpkg --root="$room/system" --log=/dev/null --force-script-chrootless --purge udfburn
        holds 'nothing is left of the package' [ -z "$(find "$room/system/usr" -type f 2> "$room/which")" ]
        holds 'an image stays' [ -f "$room/system/var/lib/udfburn/archive.img" ]
    else
        absent 'the right to run dpkg in a root'
    fi
else
    absent dpkg-deb
fi

# The C library: what it has beside the programs, a program that pkg-config finds it for, and its packages.
library_files() {
    for file in libudfburn.so.0 libudfburn.a libudfburn_drive.a pkgconfig/udfburn.pc; do echo "644 $2/$file"; done
    echo "644 $1/include/udfburn.h"
    echo "644 $1/share/man/man3/udfburn.3"
    sed -n 's/^[a-z].*[ *]\(udfburn_[a-z_]*\)(.*/\1/p' library/udfburn.h | sed "s|.*|644 $1/share/man/man3/&.3|"
    for example in examples/*.c; do echo "644 $1/share/doc/udfburn/$example"; done
}

# runs_with FLAGS WORD..: compiles a program with what pkg-config says and these flags, and runs it before these words.
runs_with() {
    flags=$1
    shift
    # shellcheck disable=SC2046,SC2086
    cc -o "$room/versioned" "$room/versioned.c" $(PKG_CONFIG_PATH=$room/embedded/lib/pkgconfig pkg-config --cflags --libs $flags udfburn) &&
        "$@" "$room/versioned" > "$room/found" && diff "$room/version" "$room/found"
}

# documented: compiles a program as docs/EMBEDDING.md says.
documented() {
    # shellcheck disable=SC2046
    cc "$room/recorder.c" $(PKG_CONFIG_PATH=$room/clean/lib/pkgconfig pkg-config --cflags --libs udfburn) -o "$room/recorder"
}

if [ -n "$library" ]; then
    holds 'install.sh names a library that is not there' sh -c '! LIBRARY=/nowhere ./install.sh "$1/none" && [ ! -e "$1/none" ]' - "$room"
    mkdir "$room/part" "$room/with"
    cp "$library"/libudfburn.so.0 "$library"/libudfburn.a "$room/part"
    holds 'install.sh names a part of a library' sh -c '! LIBRARY=$1/part ./install.sh "$1/none" && [ ! -e "$1/none" ]' - "$room"
    holds 'it installs the library' env DESTDIR="$room/with" LIBRARY="$library" LIBDIR=/usr/lib/machine ./install.sh /usr
    { expected usr; library_files usr usr/lib/machine; } | LC_ALL=C sort -k 2 > "$room/wanted"
    holds 'it installs these files and the library' same "$room/wanted" files "$room/with"
    holds 'the linker finds the library' [ "$(readlink "$room/with/usr/lib/machine/libudfburn.so")" = libudfburn.so.0 ]
    DESTDIR=$room/with ./install.sh --uninstall /usr > "$room/listed" 2> "$room/errors"
    holds 'nothing is left of the library' [ -z "$(find "$room/with" ! -type d)" ]
    holds 'it installs the library alone' env DESTDIR="$room/with" LIBRARY="$library" UDFBURN=/nowhere ./install.sh --library /usr/local
    { library_files usr/local usr/local/lib; echo '644 usr/local/share/doc/udfburn/installed'; } | LC_ALL=C sort -k 2 > "$room/wanted"
    holds 'it has these files of the library' same "$room/wanted" files "$room/with"
    holds 'it installs the programs beside it' env DESTDIR="$room/with" LIBRARY="$library" ./install.sh /usr/local
    holds 'it installs the library alone again' env DESTDIR="$room/with" LIBRARY="$library" ./install.sh --library /usr/local
    { expected usr/local; library_files usr/local usr/local/lib; } | LC_ALL=C sort -k 2 > "$room/wanted"
    holds 'and what is beside it stays' same "$room/wanted" files "$room/with"
    DESTDIR=$room/with ./install.sh --uninstall /usr/local > "$room/listed" 2> "$room/errors"
    holds 'nothing is left of both' [ -z "$(find "$room/with" ! -type d)" ]
    status=0
    LIBRARY='' ./install.sh --library "$room/none" > "$room/told" 2>&1 || status=$?
    holds 'a library alone is named' [ "$status" -eq 2 ]
    holds 'and nothing is installed without it' [ ! -e "$room/none" ]
    printf '#include <stdio.h>\n#include <udfburn.h>\nint main(void) { return puts(udfburn_version()) < 0; }\n' > "$room/versioned.c"
    sed -n 's/^__version__ = "\(.*\)"$/\1/p' clients/python/udfburn/__init__.py > "$room/version"
    holds 'it installs into a prefix with the library' env LIBRARY="$library" ./install.sh "$room/embedded"
    need pkg-config pkgconf
    if command -v pkg-config > "$room/which" && command -v cc > "$room/which"; then
        holds 'a program is linked with the library' runs_with '' env LD_LIBRARY_PATH="$room/embedded/lib"
        # The lines of docs/EMBEDDING.md, from a prefix that has nothing else.
        holds 'a clean prefix gets the library alone' env LIBRARY="$library" ./install.sh --library "$room/clean"
        sed -n '/^```c$/,/^```$/p' docs/EMBEDDING.md | grep -v '^```' > "$room/recorder.c"
        holds 'the documented recorder is compiled there' documented
        holds 'and with the archive' cc "$room/recorder.c" -I"$library" "$library/libudfburn.a" -o "$room/recorder.static"
        echo stored > "$room/wanted"
        for recorder in recorder recorder.static; do
            holds "$recorder stores" same "$room/wanted" sh -c 'echo data | LD_LIBRARY_PATH=$1/clean/lib "$1/$2" "$1/$2.img" /a' - "$room" "$recorder"
        done
        if command -v man > "$room/which" && man --version > "$room/which" 2>&1; then
            holds 'each function leads to the page' sh -c 'MANPATH=$1/clean/share/man man -P cat udfburn_open_read 2> "$1/which" | grep -q UDFBURN' - "$room"
        fi
        rm "$room/embedded/lib/libudfburn.so"
        holds 'a program is linked statically' runs_with --static env
    fi
fi
if [ -n "$library" ] && command -v dpkg-deb > "$room/which"; then
    holds 'packages are made' env LIBRARY="$library" packaging/deb/build.sh "$room/debs"
    printf 'libudfburn-dev\nlibudfburn0\nudfburn\n' > "$room/wanted"
    holds 'there are three' same "$room/wanted" sh -c 'for file in "$1"/*.deb; do dpkg-deb -f "$file" Package; done | sort' - "$room/debs"
    holds 'the package of the programs is the same' sh -c \
        'dpkg-deb -c "$1" | sed "s/.* //" > "$3/one" && dpkg-deb -c "$2" | sed "s/.* //" | diff "$3/one" -' - \
        "$(find "$room/deb" -name '*.deb')" "$(find "$room/debs" -name 'udfburn_*.deb')" "$room"
    machine=$(gcc -dumpmachine)
    {
        library_files usr "usr/lib/$machine" | sed -e 's|\(share/man/.*\)|\1.gz|' -e 's|doc/udfburn/|doc/libudfburn-dev/|'
        for page in EMBEDDING.md PROTOCOL.md; do echo "644 usr/share/doc/libudfburn-dev/docs/$page"; done
        for package in libudfburn0 libudfburn-dev; do
            for file in NEWS.gz changelog.gz copyright; do echo "644 usr/share/doc/$package/$file"; done
        done
    } | LC_ALL=C sort -k 2 > "$room/wanted"
    for package in "$room/debs"/lib*.deb; do dpkg-deb -x "$package" "$room/libraries"; done
    holds 'the packages of the library have these files' same "$room/wanted" files "$room/libraries"
    dpkg-deb -e "$room/debs"/libudfburn0_*.deb "$room/control"
    printf 'libudfburn 0 libudfburn0 (>= %s)\n' "$(cat "$room/version")" > "$room/wanted"
    holds 'a program that is built with it asks for its version' same "$room/wanted" cat "$room/control/shlibs"
    need lintian lintian
    if command -v lintian > "$room/which"; then
        holds 'lintian has nothing to say of them' silent lintian --allow-root "$room/debs"/lib*.deb
    fi
fi

# The manual pages.
need mandoc mandoc
if command -v mandoc > "$room/which"; then
    for page in man/*.[1-9]; do
        # Which pages of other programs are there is the machine's own.
        (cd man && mandoc -T lint "${page##*/}") 2>&1 | grep -v -e 'referenced manual not found' -e 'outdated mandoc.db' \
            > "$room/lint"
        holds "$page is clean" silent cat "$room/lint"
        holds "$page is read" sh -c 'mandoc -T utf8 "$1" | grep -q "$(basename "${1%.*}" | tr a-z A-Z)"' - "$page"
    done
fi
sed -n 's/^\.Xr \(udfburn[^ ]*\) \([1-9]\).*/man\/\1.\2/p' man/*.[1-9] | sort -u > "$room/named"
holds 'pages name pages' [ -s "$room/named" ]
while read -r page; do
    holds "$page is there" [ -f "$page" ]
done < "$room/named"

# The unit. Its commands, in folders of this test's, as a supervisor runs them.
mkdir "$room/state"
"$prefix/bin/udfburn" format "$room/state/archive.img" DISC 0 3000 > "$room/told"
zeros='\000\000\000\000\000\000\000'
printf "\\046\\000\\000\\000\\001\\007$zeros\\001$zeros\\000$zeros\\001\\001\\000a\\005\\000\\000\\000hello" > "$room/create"
printf '\006\000\000\000\000\000\001\000\000\000' > "$room/wanted"
commands() {
    sed -n "s/^$1=//p" "$prefix/lib/systemd/system/udfburnd@.service" |
        sed -e "s|/var/lib/udfburn|$room/state|g" -e "s|/run/udfburn-%i|$room/run|g" -e 's|%i|archive|g'
}

# asked: sends the daemon a request, once it takes connections; for longer than any machine takes.
asked() {
    tries=3000
    until "$prefix/bin/udfburn" send "$room/run/socket" < "$room/create" 2> "$room/unheard"; do
        tries=$((tries - 1))
        grep -q ': 94 Socket$' "$room/unheard" && [ "$tries" -gt 0 ] || return 1
        sleep 0.1
    done
}

# supervise MORE WORD..: starts the daemon as the unit does, with MORE after it and these words before each command, and sends it a
# request. It is killed, or ends by itself where MORE says so: after strace it is a process of strace's, which would stay.
supervise() {
    more=$1
    shift
    mkdir -p "$room/run"
    commands ExecStartPre > "$room/before"
    holds 'a start has a command before it' [ "$(grep -c . "$room/before")" -eq 1 ]
    while read -r command; do
        holds "before the start: ${command%% *}" "$@" $command
    done < "$room/before"
    # Words of the unit, and none or two of a test's.
    # shellcheck disable=SC2046
    "$@" $(commands ExecStart) $more > "$room/daemon" 2>&1 &
    daemon=$!
    holds 'the daemon answers' same "$room/wanted" asked
    [ -n "$more" ] || kill -9 "$daemon"
    wait "$daemon" 2> "$room/ended"
}
supervise '' env
# The socket of the daemon that was killed is still there.
holds 'a killed daemon leaves its socket' [ -S "$room/run/socket" ]
supervise '' env
# Five starts within ten seconds are the last ones, where no other limit is said.
setting() {
    sed -n '/^\['"$1"'\]/,/^\[/s/^'"$2"'=//p' "$prefix/lib/systemd/system/udfburnd@.service"
}
holds 'a daemon is started again however it ended' [ "$(setting Service Restart)" = always ]
holds 'it is started again however often it ended' [ "$(setting Unit StartLimitIntervalSec)" = 0 ]
holds 'no limit on files ends it in a commit' [ "$(setting Service LimitFSIZE)" = infinity ]
need systemd-analyze systemd
if command -v systemd-analyze > "$room/which"; then
    # It looks whether the program that a unit starts is there, as the one that was installed above is.
    unit=$prefix/lib/systemd/system/udfburnd@.service
    holds 'the unit is well-formed' silent systemd-analyze verify --man=no "$unit"
    cp "$unit" "$room/udfburnd@archive.service"
    holds 'little is exposed' systemd-analyze security --offline=yes --threshold=15 --no-pager "$room/udfburnd@archive.service"

    # What the unit's commands and the daemon call is within its filter.
    need strace strace
    if command -v strace > "$room/which"; then
        for sign in '' '~'; do
            sed -n "s/^SystemCallFilter=$sign\(@.*\)/\1/p" "$unit" | tr ' ' '\n' > "$room/sets"
            while [ -s "$room/sets" ]; do
                while read -r set; do systemd-analyze syscall-filter "$set"; done < "$room/sets" | grep '^    [a-z@]' |
                    tr -d ' ' > "$room/calls"
                grep -v @ "$room/calls"
                grep @ "$room/calls" > "$room/sets"
            done > "$room/filter$sign"
        done
        holds 'the filter has calls' [ -s "$room/filter" ]
        holds 'the filter leaves out calls' [ -s "$room/filter~" ]
        supervise '--connections 1' strace -f -qq -y -A -o "$room/trace"
        sed -n 's/^[0-9]* *\([a-z0-9_]*\)(.*/\1/p' "$room/trace" | sort -u > "$room/called"
        holds 'the daemon was traced' grep -q '^accept' "$room/called"
        # In the order in which they count: the image, what is kept of it in memory, and then its folder.
        sed -n -e 's|^[0-9]* *\(fsync\)([0-9]*<'"$room"'/state\(.*\)>) *= 0$|\1 \2|p' \
            -e 's|^[0-9]* *\(fadvise64\)([0-9]*<'"$room"'/state\(.*\)>, 0, 0, POSIX_FADV_DONTNEED) *= 0$|\1 \2|p' "$room/trace" |
            head -n 3 > "$room/order"
        printf 'fsync /archive.img\nfadvise64 /archive.img\nfsync \n' > "$room/wanted.order"
        holds 'a start syncs the image, forgets it and syncs the folder' diff "$room/wanted.order" "$room/order"
        while read -r call; do
            holds "$call is within the filter" sh -c 'grep -qx "$2" "$1/filter" && ! grep -qx "$2" "$1/filter~"' - "$room" "$call"
        done < "$room/called"
    fi
fi

# The units of the archive: their commands, as systemd gives them to the shell.
# scheduled UNIT SETTING..: what a unit starts, with these settings of its configuration after its own.
scheduled() {
    unit=$prefix/lib/systemd/system/udfburn-archive-$1
    shift
    sed -n 's/^ExecStart=//p' "$unit" | sed -e 's/[$][$]/$/g' -e 's/%i/some.service/g' > "$room/command"
    sed -n 's/^Environment=//p' "$unit" | xargs -n 1 > "$room/settings"
    while IFS= read -r setting; do [ -z "$setting" ] || set -- "$setting" "$@"; done < "$room/settings"
    env "$@" sh "$room/command"
}

# ends STATUS COMMAND..: whether the command ends with this status.
ends() {
    wanted=$1
    shift
    status=0
    "$@" || status=$?
    echo "status $status"
    [ "$status" -eq "$wanted" ]
}

# mailed: what the unit for failures gives to a program that sends mail.
mailed() {
    mkdir -p "$room/mailer"
    printf '#!/bin/sh\ncat > "%s/mail"\n' "$room" > "$room/mailer/sendmail"
    printf '#!/bin/sh\necho "$@"\n' > "$room/mailer/systemctl"
    chmod +x "$room/mailer/sendmail" "$room/mailer/systemctl"
    sed -n 's/^ExecStart=//p' "$prefix/lib/systemd/system/udfburn-archive-failed@.service" |
        sed -e 's/[$][$]/$/g' -e 's/%i/some.service/g' -e "s|/usr/sbin/sendmail|$room/mailer/sendmail|" > "$room/command"
    PATH=$room/mailer:$PATH MAILTO=me sh "$room/command"
    printf 'To: me\nSubject: some.service failed on %s\n\nstatus --full --lines=50 some.service\n' "$(uname -n)" | diff - "$room/mail"
}

if [ -d clients/python/udfburn ] && python3 -c 'import tomllib' 2> "$room/which"; then
    mkdir "$room/photos" "$room/copies"
    echo data > "$room/photos/one"
    archive=$room/archive
    holds 'an archive is made' "$prefix/bin/udfburn-archive" init "$archive" --label T --copies "$room/copies" --same-device --capacity 600
    holds 'a unit adds' silent scheduled add@.service UDFBURN_ARCHIVE="$archive" ADD="--at /photos $room/photos"
    ln -s one "$room/photos/link"
    head -c 700000 /dev/urandom > "$room/photos/two"
    holds 'it fails for what is not stored' ends 1 scheduled add@.service UDFBURN_ARCHIVE="$archive" ADD="--at /photos $room/photos"
    holds 'full volumes are closed and copied all the same' [ -n "$(find "$room/copies" -name '*.img')" ]
    holds 'a unit checks' silent scheduled check@.service UDFBURN_ARCHIVE="$archive" STATUS="--prometheus $room/archive.prom"
    holds 'it writes metrics' grep -q '^udfburn_archive_volumes' "$room/archive.prom"
    find "$room/copies" -name '*.img' -exec rm {} +
    holds 'it fails for a copy that is lost' ends 1 scheduled check@.service UDFBURN_ARCHIVE="$archive"
    holds 'and goes on to do so until that is repaired' ends 1 scheduled check@.service UDFBURN_ARCHIVE="$archive" CHECK=T-000002
    holds 'what failed is mailed' mailed
    if command -v systemd-analyze > "$room/which"; then
        holds 'the units of the archive are well-formed' silent systemd-analyze verify --man=no "$prefix"/lib/systemd/system/udfburn-archive-*
    fi
fi

# The prefix, after the use of what it has.
holds 'the prefix is left' ./install.sh --uninstall "$prefix"
holds 'nothing is left in it' [ -z "$(find "$prefix" -type f)" ]

counted
