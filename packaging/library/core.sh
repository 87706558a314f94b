#!/bin/sh
# Proves and builds the core of the C library, crates/capi, over the libraries that `rt ci` has just proved: crates/capi/out/libcapi.a.
#
# usage: packaging/library/core.sh
# `rt ci` proves a static library and builds nothing of it. `rt lib` would build it, but after `rt ci` it proves every crate below
# once more, since it trusts only what it made by itself. This takes the kit's own prover with the words that rt gives it, so that
# capi alone is proved again. Run it on the sources that `rt ci` passed, and nowhere else; everywhere else `rt lib` is right.
set -eu

cd "$(dirname "$0")/../.."
kit=$(dirname "$(dirname "$(realpath "$(command -v rt)")")")
root=$PWD
# What `rt lib` and `rt check` built has a stamp, and may be older than the sources: rt sees to that.
for stamp in crates/*/out/rlib/stamp; do
    if [ -f "$stamp" ]; then
        cd crates/capi
        exec rt lib
    fi
done
set -- --crate-name capi src/lib.rt --extern "std=$kit/rlibs/std.rlib" -L "dependency=$kit/rlibs"
# shellcheck disable=SC2013
for name in $(sed -n 's/^capi staticlib://p' crates.txt); do
    if [ -d "crates/$name" ]; then
        set -- "$@" --extern "$name=$root/crates/$name/out/rlib/$name.rlib"
    else
        set -- "$@" --extern "$name=$kit/rlibs/$name.rlib"
    fi
done
for folder in crates/*/out/rlib; do
    set -- "$@" -L "dependency=$root/$folder"
done
mkdir -p crates/capi/out
rm -f crates/capi/out/libcapi.a
cd crates/capi
if ! "$kit/bin/rattle" build "$@" --antt-project "$kit/rattle/logic/antt-project.json" --logic-built "$kit/logic_built" --jobs "${RT_JOBS:-2}" \
    --links capi= --crate-type staticlib --toolchain "$kit/toolchain" --backend llvm -o out/libcapi.a; then
    # Another kit may want other words. rt knows them, and takes longer.
    echo 'core.sh: not built over what rt ci left; rt lib proves all of it once more' >&2
    rm -f out/libcapi.a
    exec rt lib
fi
