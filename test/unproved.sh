#!/bin/sh
# Builds a program of the repository without any proof, in one to two minutes, to try a change before it is proved.
#
# usage: test/unproved.sh CRATE OUT
#        test/unproved.sh --module CRATE OUT     stops at the LLVM module, which OUT is then
# The program that it writes to OUT shows nothing about contracts: use it for tests, and never for a volume that
# anybody needs. It takes up to four times the processor time of the proved one (`udfburn log` of 36,000 commits), so its timings say
# nothing. The script takes the Rattle kit, a POSIX shell and the tools of a base system.
#
# `rt try` compiles a program without proving it, and throws the LLVM module away. So it is run from a copy of the kit in which
# another clang comes first: that one keeps the module, and then does what it was asked to. The module is compiled with -O2 and
# linked with the kit's C parts, as rt links what it has proved.
set -eu

from=$PWD
unset CDPATH
cd "$(dirname "$0")/.." || exit 1
is_module=
if [ "${1:-}" = --module ]; then
    is_module=1
    shift
fi
if [ $# -ne 2 ] || ! [ -f "crates/$1/src/main.rt" ]; then
    echo 'usage: test/unproved.sh [--module] CRATE OUT, where CRATE is a program' >&2
    exit 2
fi
crate=$1
out=$(cd "$from" && realpath -m "$2")
kit=$(dirname "$(dirname "$(realpath "$(command -v rt)")")")
room=$(mktemp -d) || exit 1
trap 'rm -rf "$room"' EXIT
trap 'exit 1' HUP INT PIPE TERM
mkdir -p "$(dirname "$out")" "$room/kit/bin" "$room/kit/toolchain/bin" "$room/kept"

# link FOLDER EXCEPT: links all of a folder of the kit into the copy, except what is to differ there.
link() {
    for file in "$kit/$1"/*; do
        case " $2 " in
            *" ${file##*/} "*) ;;
            *) ln -s "$file" "$room/kit/$1/" ;;
        esac
    done
}

link . 'bin toolchain'
link bin 'rt rtlib.py'
cp "$kit/bin/rt" "$kit/bin/rtlib.py" "$room/kit/bin/"
link toolchain bin
link toolchain/bin clang
cat > "$room/kit/toolchain/bin/clang" << END
#!/bin/sh
for word in "\$@"; do
    case \$word in *.bc) cp "\$word" "$room/kept/\$\$.bc" ;; esac
done
exec "$kit/toolchain/bin/clang" "\$@"
END
chmod +x "$room/kit/toolchain/bin/clang"

# The program is started too, with words that make it end at once.
(cd "crates/$crate" && "$room/kit/bin/rt" try -- none none < /dev/null > "$room/said" 2>&1) || true
module=
for file in "$room"/kept/*.bc; do
    if [ -f "$file" ] && { [ -z "$module" ] || [ "$(wc -c < "$file")" -gt "$(wc -c < "$module")" ]; }; then module=$file; fi
done
if [ -z "$module" ]; then
    cat "$room/said" >&2
    exit 1
fi
if [ -n "$is_module" ]; then
    cp "$module" "$out"
    exit
fi
lib=$kit/toolchain/lib
"$kit/toolchain/bin/clang" --target=x86_64-unknown-linux-gnu --sysroot="$kit/toolchain" -march=x86-64 -mllvm -no-trap-after-noreturn \
    -ffunction-sections -fdata-sections -mllvm -trap-unreachable -mllvm -no-x86-call-frame-opt -mllvm -disable-machine-licm \
    -mllvm -disable-postra-machine-licm -mllvm -sink-common-insts=false --no-default-config -no-canonical-prefixes -fintegrated-cc1 \
    -fno-crash-diagnostics -Werror -c -x ir "$module" -o "$room/program.o" -fPIE -O2
"$kit/toolchain/bin/ld.lld" -m elf_x86_64 -pie --dynamic-linker /lib64/ld-linux-x86-64.so.2 --as-needed -z relro -z now -z noexecstack \
    --eh-frame-hdr --gc-sections --no-dependent-libraries --threads=1 -o "$out" "$lib/Scrt1.o" "$lib/crti.o" "$lib/crtbeginS.o" \
    "$room/program.o" "$kit/c/libos_c.a" "$kit/c/liblibc_c.a" "$lib/libm.so.6" "$lib/libc.so.6" "$lib/libc_nonshared.a" \
    "$lib/ld-linux-x86-64.so.2" "$lib/libgcc.a" "$lib/libgcc_s.so.1" "$lib/crtendS.o" "$lib/crtn.o"
