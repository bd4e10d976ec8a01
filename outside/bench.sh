#!/bin/sh
# bench.sh: the proved library against plain Rust and plain C, and the span program against cat, as tables in markdown.
#
#     outside/bench.sh [--quick]
#
# It makes two captures of 1 GB, one after the other, in a temporary folder (100 MB with --quick), and removes them.
set -eu
cd "$(dirname "$0")"
export CARGO_TARGET_DIR="$PWD/target"

room=$(mktemp -d)
trap 'rm -rf "$room"' EXIT
free=$(df -Pk "$room" | awk 'NR == 2 { print $4 }')
[ "$free" -gt 2000000 ] || { echo "bench.sh: under 2 GB are free in $room; set TMPDIR to a folder that has more" >&2; exit 1; }

./native.sh
cc -O3 -c c/peer.c -o target/native/bench.o
cc -O3 -DPIECES -c c/peer.c -o target/native/pieces.o
DOOR_FOLDER=$PWD/target/native PEER_FOLDER=$PWD/target/native cargo build --quiet --release --offline --bin bench --bin pieces --bin calls

kind=$(lscpu 2>/dev/null | sed -n 's/^Model name: *//p' | head -n 1)
echo "$(uname -m)${kind:+, $kind}, $(getconf _NPROCESSORS_ONLN) cores; $(rustc --version | cut -d' ' -f1-2), $(cc --version | head -n 1)"
echo
target/release/pieces "$@"
echo
target/release/calls "$@"
echo
SPAN_PROGRAM=$PWD/target/native/span CAPTURE_FOLDER=$room target/release/bench "$@"
