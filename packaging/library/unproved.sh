#!/bin/sh
# Builds the core of the C library, crates/capi, without any proof, in a minute or two: to try a change before it is proved.
#
# usage: packaging/library/unproved.sh OUT.o
# What it writes shows nothing about contracts: never use it for a volume that anybody needs.
#
# `rt try` compiles programs alone. So it is given a copy of the crates in which the modules of capi are those of a program that
# calls each export. In the module that LLVM gets, the exports are made external again, and the program's main is left out.
set -eu

from=$PWD
unset CDPATH
cd "$(dirname "$0")/../.." || exit 1
[ $# -eq 1 ] || { echo 'usage: packaging/library/unproved.sh OUT.o' >&2; exit 2; }
out=$(cd "$from" && realpath -m "$1")
kit=$(dirname "$(dirname "$(realpath "$(command -v rt)")")")
room=$(mktemp -d) || exit 1
trap 'rm -rf "$room"' EXIT
trap 'exit 1' HUP INT PIPE TERM

mkdir -p "$room/tree/test"
tar -cf - --exclude=out --exclude=proofs --exclude=must-fail crates crates.txt HANDLES | tar -xf - -C "$room/tree"
cp test/unproved.sh "$room/tree/test/"
program=$room/tree/crates/capi_program
mkdir -p "$program"
mv "$room/tree/crates/capi/src" "$program/src"
rm -r "$room/tree/crates/capi"
sed -i 's/^capi staticlib:/capi_program:/' "$room/tree/crates.txt"

# The modules, and a main that calls each export.
{
    sed -n '/^#!/p; /^ghost use/p; /^mod /p' "$program/src/lib.rt"
    cat << 'END'
use std::process::ExitCode;

fn main(rt: HostRuntime) -> ExitCode {
    let alloc = rt.alloc();
    let mut out: *mut u8 = std::ptr::null_mut();
    let mut block = [0u8; 2048];
    let mut address: u32 = 0;
    let _ = exports::udfburn_core_format_fd(alloc, -1, b"X", 0, 3000);
    if exports::udfburn_core_new(alloc, &mut out) != 0 {
        return ExitCode::from(3u8);
    }
    let mut number: u64 = 0;
    let mut status = embedding::Status { moment: 0, capacity: 0, next: 0, commits: 0, files: 0, directories: 0, clients: 0, label_length: 0, label: [0; 64] };
    let mut commit = embedding::CommitStatus { moment: 0, number: 0, address: 0, files: 0, directories: 0 };
    unsafe {
        let _ = exports::udfburn_core_open_fd(out, -1);
        let _ = exports::udfburn_core_open_drive(out, -1);
        let _ = exports::udfburn_core_open_memory(out, b"MEM", 0, 3000);
        exports::udfburn_core_begin(out);
        let _ = exports::udfburn_core_answer(out, &[0u8; 4]);
        let _ = exports::udfburn_core_settle(out);
        exports::udfburn_core_take_back(out);
        let _ = exports::udfburn_core_answered(out);
        let _ = exports::udfburn_core_take(out, &mut block);
        let _ = exports::udfburn_core_next_block(out, &mut address, &mut block);
        let _ = exports::udfburn_core_took(out);
        let _ = exports::udfburn_core_last_number(out, 1, &mut number);
        let _ = exports::udfburn_core_status(out, &mut status);
        let _ = exports::udfburn_core_log(out, 0, &mut commit);
        exports::udfburn_core_end(out);
    }
    ExitCode::from(0u8)
}
END
} > "$program/src/main.rt"
rm "$program/src/lib.rt"

"$room/tree/test/unproved.sh" --module capi_program "$room/core.bc"
clang=$kit/toolchain/bin/clang
"$clang" --target=x86_64-unknown-linux-gnu --no-default-config -x ir -S -emit-llvm -Xclang -disable-llvm-passes "$room/core.bc" -o "$room/core.ll"
sed -i -E -e '/^define internal .*@"capi_program::exports::udfburn_core_[a-z_]*"\(/s/^define internal/define/' \
    -e 's/@"capi_program::exports::(udfburn_core_[a-z_]*)"/@\1/g' \
    -e 's/^define i32 @main\(/define internal i32 @program_main(/' -e 's/ sanitize_address//' "$room/core.ll"
"$clang" --target=x86_64-unknown-linux-gnu --no-default-config -march=x86-64 -mllvm -no-trap-after-noreturn -ffunction-sections \
    -fdata-sections -mllvm -trap-unreachable -mllvm -no-x86-call-frame-opt -mllvm -disable-machine-licm -mllvm -disable-postra-machine-licm \
    -mllvm -sink-common-insts=false -fno-crash-diagnostics -c -x ir "$room/core.ll" -o "$out" -fPIC -O2
