#!/bin/sh
# caught.sh: whether the comparison would notice. Each patch of outside/caught/ makes one rule of the plain implementation wrong,
# in a copy, and the comparison with the proved library has to find a difference.
#
#     outside/caught.sh [NAME...]      every patch, by default
set -eu
cd "$(dirname "$0")"
[ $# -gt 0 ] || for patch in caught/*.patch; do set -- "$@" "$(basename "$patch" .patch)"; done
for name; do
    [ -f "caught/$name.patch" ] || { echo "caught.sh: there is no outside/caught/$name.patch" >&2; exit 2; }
done
./native.sh
DOOR_FOLDER=$PWD/target/native
SPAN_PROGRAM=$PWD/target/native/span
export DOOR_FOLDER SPAN_PROGRAM

room=$(mktemp -d)
trap 'rm -rf "$room"' EXIT
trap 'exit 130' INT TERM
tried=0 caught=0
for name; do
    tried=$((tried + 1))
    rm -rf "$room/outside"
    mkdir "$room/outside"
    cp -R Cargo.toml Cargo.lock build.rs src "$room/outside"
    (cd "$room/outside" && GIT_CEILING_DIRECTORIES=$room git apply "$OLDPWD/caught/$name.patch" &&
        CARGO_TARGET_DIR=$room/target cargo build --quiet --release --offline --bin compare)
    # a comparison that broke off for another reason than a difference shows nothing
    if "$room/target/release/compare" >"$room/said" 2>&1; then
        echo "$name: NOT CAUGHT"
    elif difference=$(grep -m 1 '^DIFFERENCE' "$room/said"); then
        caught=$((caught + 1))
        echo "$name: caught, first ${difference#DIFFERENCE }"
    else
        echo "$name: THE COMPARISON FAILED"
        tail -n 5 "$room/said"
    fi
done
echo "$tried tried, $caught caught"
[ "$tried" -eq "$caught" ]
