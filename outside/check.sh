#!/bin/sh
# check.sh: what is not Rattle in this repository, checked: the unit tests of the plain implementation and of the programs on
# the air, what these do in trouble, and the comparison of the proved library with the plain implementation.
#
#     outside/check.sh [TIMES]      random inputs times TIMES (1 by default)
set -eu
cd "$(dirname "$0")"
export CARGO_TARGET_DIR="$PWD/target"
cargo test --quiet --release --offline
./native.sh
export DOOR_FOLDER="$PWD/target/native"
SPAN_PROGRAM=$DOOR_FOLDER/span cargo test --quiet --release --offline --test trouble
cargo build --quiet --release --offline --bin compare
SPAN_PROGRAM=$DOOR_FOLDER/span exec target/release/compare "$@"
