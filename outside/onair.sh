#!/bin/sh
# onair.sh: the two programs on the air, built over the proved library if need be, and run; ./run air and ./run record
# come here.
#
#     outside/onair.sh air [WORD ..]       the station
#     outside/onair.sh record [WORD ..]    the night recorder
#     outside/onair.sh --build             only build, and print the folder that air, record and span are in
set -eu
usage() { sed -n '2,8s/^# \{0,1\}//p' "$0"; }
case ${1-} in
air | record | --build) name=$1 && shift ;;
-h | --help) usage && exit ;;
*) usage >&2 && exit 2 ;;
esac
say() { printf 'onair: %s\n' "$*" >&2; }

outside=$(cd "$(dirname "$0")" && pwd)
programs=$outside/target/onair

# By content, as ../run decides: all that the programs could be made of, both compilers among it.
made_of() {
    kit=$(dirname "$(dirname "$(readlink -f "$(command -v rt)")")")
    (
        cd "$outside"
        cat "$kit/KIT-ID" "$kit/WHAT" 2>/dev/null || :
        rustc --version
        find ../crates ../crates.txt ../run src c Cargo.toml Cargo.lock build.rs native.sh \
            -type d -regex ".*crates/[^/]*/out" -prune -o -type f -exec sha256sum {} + | LC_ALL=C sort
    ) | sha256sum
}
is_built() { [ -f "$programs/made-of" ] && [ "$(made_of)" = "$(cat "$programs/made-of")" ]; }

build() {
    say 'proving the library and building over it first, which may take some minutes'
    before=$(made_of)
    "$outside/native.sh"
    (
        cd "$outside"
        # a folder of its own: check.sh also builds them without the proved library
        CARGO_TARGET_DIR=$PWD/target/onair-build DOOR_FOLDER=$PWD/target/native \
            cargo build --quiet --release --offline --bin air --bin record
        # copies, so that a program that runs is not written over
        for program in onair-build/release/air onair-build/release/record native/span; do
            cp "target/$program" "$programs/new"
            mv "$programs/new" "$programs/${program##*/}"
        done
    )
    printf '%s\n' "$before" >"$programs/made-of"
}

# what the programs say of themselves, without building them
case ${1-} in -h | --help)
    sed -n '/^pub const USAGE/,/^";/{//!p}' "$outside/src/bin/$name/args.rs"
    exit
    ;;
esac
for tool in rt cargo; do
    command -v $tool >/dev/null || { say "$tool is not on PATH" && exit 2; }
done
if ! is_built; then
    mkdir -p "$programs"
    # two at once would build twice into one folder; the second waits, and then finds the programs built
    (
        flock 9
        is_built || build
    ) 9>"$programs/lock"
fi
[ "$name" != --build ] || { printf '%s\n' "$programs" && exit; }
# record hands what it writes to the proved span beside it, whose line is its last
exec "$programs/$name" "$@"
