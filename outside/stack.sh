#!/bin/sh
# stack.sh: how much stack it takes to cut a packet. Document 02 leaves the packet task one kilobyte, and no contract speaks of
# the stack; so it is counted and measured here, on the archives that rt delivers.
#
#     outside/stack.sh
#
# For x86-64, for which alone rt builds, under 1,000 bytes each:
#   counted   the worst path through the machine code (src/bin/stack) of each door that cuts packets, as delivered; of the
#             functions that a Rattle program calls, compiled by the same words; and of cut_held and pack where the optimiser
#             does nothing
#   painted   each call of a door (c/stack.c), cutting in all four forms with one channel and with two, accepted and by every
#             refusal, on a painted stack: never more than was counted
#   walled    the same calls in 1,024 bytes above a page that may not be touched, and in what was painted, rounded up to
#             sixteens, but not in 16 less
#   planted   a copy of the packet, planted in the library: count, paint and wall have to notice
# Feeding is another task's, and is held to the same. It ends with 0 if all of this holds. It needs a disassembler, objdump or
# llvm-objdump.
set -eu
cd "$(dirname "$0")"
export CARGO_TARGET_DIR="$PWD/target"
room=$(mktemp -d)
trap 'rm -rf "$room"' EXIT
most=1000 kilobyte=1024
wrong=0
fails() {
    echo "FAILS: $*"
    wrong=1
}

./module.sh boxdoor "$room/boxdoor"
./module.sh runs "$room/runs"
cargo build --quiet --release --offline --bin stack
tools=$room/boxdoor/bin

# a module as rt has it compiled, but for how much is optimised
compile() { # CRATE SOURCE OBJECT LEVEL
    crate=$1 source=$2 object=$3 level=$4
    set -- -Wno-override-module
    while read -r word; do
        case $word in
        *.bc) word=$source ;;
        *.o) word=$object ;;
        -O3) word=-O$level ;;
        --sysroot=* | -Werror) continue ;;
        esac
        set -- "$@" "$word"
    done <"$room/$crate/words"
    "$tools/clang" "$@" 2>"$room/said" || { cat "$room/said" >&2; exit 1; }
}
text_of() { # CRATE: its module as text, nothing optimised
    "$tools/clang" --target=x86_64-unknown-linux-gnu -Xclang -disable-llvm-passes -S -emit-llvm -x ir \
        "$room/$1/module.bc" -o "$room/$1/module.ll"
}

listing() { # OBJECT...: by the first disassembler that there is
    for by in llvm-objdump objdump; do
        if "$by" -dr --no-show-raw-insn "$@" >"$room/listing" 2>"$room/said" && grep -q '^ .*ret' "$room/listing"; then
            cat "$room/listing"
            return
        fi
    done
    echo "stack.sh: no disassembler is here; Debian's package binutils has one" >&2
    exit 1
}
count() { # WORDS... -- OBJECT...
    words=
    while [ "$1" != -- ]; do words="$words $1" && shift; done
    shift
    listing "$@" | target/release/stack $words # no name has a blank in it
}

run() { # PROGRAM WORDS...: quietly where it is killed
    "$@" 2>"$room/said"
}
walls() { # PROGRAM WORDS...: it ran into the page that may not be touched (signal 11), and did not end for another reason
    ended=0
    run "$@" || ended=$?
    [ $ended -eq 139 ]
}

inside='cutting::cut_held samples::packing::pack'
for name in $inside cutting::cut_packet; do
    printf '%s\n' "s/^define internal \(.*@\"$name\"\)/define \1/"
done >"$room/visible"
text_of boxdoor
text_of runs
sed -f "$room/visible" "$room/runs/module.ll" >"$room/visible.ll"
cat >"$room/plant" <<'END'
/^define .*@"samples::packing::pack"/,/^}/ {
    /^start:/ a\
  %planted = alloca [1444 x i8], align 1\
  store volatile i8 1, ptr %planted, align 1\
  call void asm sideeffect "", "r,~{memory}"(ptr %planted)
}
END
sed -f "$room/plant" "$room/boxdoor/module.ll" >"$room/planted.ll"

objects() { # both archives, a planted copy, what is inside at -O3 and -O0, the door at -O0, and the calls
    for crate in boxdoor runs; do
        compile $crate "$room/$crate/module.bc" "$room/$crate.o" 3
        # what is counted is what is delivered
        cp "$room/$crate/lib$crate.a" "$room/$crate.a"
        "$tools/llvm-ar" p "$room/$crate.a" >"$room/delivered.o"
        cmp "$room/$crate.o" "$room/delivered.o" || fails "the archive of $crate is not what its module gives"
    done
    compile boxdoor "$room/planted.ll" "$room/planted.o" 3
    compile runs "$room/visible.ll" "$room/inside.o" 3
    compile runs "$room/visible.ll" "$room/inside0.o" 0
    compile boxdoor "$room/boxdoor/module.bc" "$room/boxdoor0.o" 0
    "$tools/clang" --target=x86_64-unknown-linux-gnu -O2 -ffreestanding -fno-stack-protector -mno-red-zone \
        -c c/stack.c -o "$room/calls.o"
    "$tools/ld.lld" -o "$room/calls" "$room/calls.o" "$room/boxdoor.a" "$room/runs.a"
    "$tools/ld.lld" -o "$room/planted" "$room/calls.o" "$room/planted.o" "$room/runs.a"
}

# a door: counted alone and with its caller in c/stack.c, painted and walled by that program's calls of it
measure() { # CRATE DOOR CALLER CALLS [--tables]
    archive=$room/$1.a door=$2 caller=$3 calls=$4 tables=${5-}
    count $tables $most "$door" -- "$archive" || fails "$door, counted"
    count $tables $most "$caller" -- "$room/calls.o" "$archive" >"$room/counted" || fails "$caller, counted"
    counted=$(sed -n 's/^[a-z_]*: \([0-9]*\) bytes.*/\1/p' "$room/counted")
    run "$room/calls" "$calls" painted >"$room/painted" || {
        grep '^WRONG' "$room/painted" || :
        fails "$door on a painted stack"
    }
    sed -n 's/^  /    /p' "$room/painted"
    used=$(sed -n 's/^most //p' "$room/painted")
    { [ "${used:-0}" -gt 0 ] && [ "$used" -le "${counted:-0}" ]; } || fails "$door: more was painted than counted"
    up=$(((${used:-0} + 15) / 16 * 16))
    run "$room/calls" "$calls" $kilobyte || fails "$door in $kilobyte bytes of stack"
    run "$room/calls" "$calls" $up || fails "$door in the $up bytes that were painted"
    walls "$room/calls" "$calls" $((up - 16)) || fails "$door, not stopped in $((up - 16)) bytes: paint and wall disagree"
    echo "    with its caller: counted ${counted:-nothing}, painted ${used:-nothing}; runs in $kilobyte and in $up, not in $((up - 16))"
}

# a check that cannot fail is none
planted() {
    if count $most skvornela_cut -- "$room/planted.o" >"$room/counted"; then fails "the count missed a planted copy"; fi
    grep -q 'TOO MUCH$' "$room/counted" || fails "the count refused a planted copy for another reason"
    used=$(run "$room/planted" cut painted | sed -n 's/^most //p')
    [ "${used:-0}" -ge $most ] || fails "the paint missed a planted copy"
    walls "$room/planted" cut $kilobyte || fails "a planted copy was not stopped in $kilobyte bytes"
    echo "a planted copy of the packet: counted $(sed 's/^[^:]*: \([0-9]*\) .*/\1/' "$room/counted"), painted $used, not past the wall"
}

objects
echo "x86_64, as delivered (-O3):"
measure boxdoor skvornela_cut cut_now cut
measure runs skvornela_cut_run run_now run
measure boxdoor skvornela_feed feed_now feed --tables
planted
echo "what a Rattle program calls:"
count $most $inside cutting::cut_packet -- "$room/inside.o" || fails "a function that a Rattle program calls"
echo "where the optimiser does nothing (-O0):" # with the memset and memmove of c/stack.c, where they are called
count $most $inside -- "$room/inside0.o" "$room/calls.o" || fails "the path inside at -O0"
echo "at -O0 with no limit, to be known:"
count 1000000 cutting::cut_packet -- "$room/inside0.o" "$room/calls.o" | sed 's/ (.*//'
count 1000000 skvornela_cut -- "$room/boxdoor0.o" "$room/calls.o" | sed 's/ (.*//'
[ $wrong -eq 0 ] || { echo "stack.sh: FAILED"; exit 1; }
echo "stack.sh: all keep under $most bytes of stack"
