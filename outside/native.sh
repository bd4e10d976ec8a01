#!/bin/sh
# native.sh: what rt proves and builds, in outside/target/native.
#
#     native.sh [NAME...]      a static library:  outside/target/native/libNAME.a
#                              a program:         outside/target/native/NAME
#                              no name:           all that the comparison and the benchmarks need
#
# The kit builds for x86-64 alone: its own archive and its own program are taken.
set -eu

[ $# -gt 0 ] || set -- boxdoor harvestdoor airdoor talks runs span
[ "$(uname -m)" = x86_64 ] || { echo "native.sh: the kit builds for x86-64 alone, and this is $(uname -m)" >&2; exit 2; }
cd "$(dirname "$0")/.."
out=$PWD/outside/target/native
mkdir -p "$out"

for name; do
    if [ -f "crates/$name/src/main.rt" ]; then
        program=$(./run --command "$name")
        cp "$program" "$out/$name.new"
        mv "$out/$name.new" "$out/$name"
    else
        # by LLVM, whatever the caller's environment prefers
        (cd "crates/$name" && env -u RT_BACKEND rt lib) >"$out/log" 2>&1 </dev/null || { cat "$out/log" >&2; exit 1; }
        cp "crates/$name/out/lib$name.a" "$out/lib$name.a"
    fi
done
