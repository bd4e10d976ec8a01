#!/bin/sh
# fails.sh: what span, session, newer and older do where a read or a write fails: one line on standard error, which says why, and nothing
# on standard output after it. The gate runs programs on files that can be read, and cannot show it.
#
#     outside/fails.sh
#
# It needs the toolchain and Linux's /dev/full.
set -eu
cd "$(dirname "$0")/.."
room=$(mktemp -d)
trap 'rm -rf "$room"' EXIT
wrong=0
is() { # WHAT SAID-EXPECTED WRITTEN-EXPECTED
    if [ "$(cat "$room/said")" = "$2" ] && [ "$(cat "$room/wrote")" = "$3" ]; then
        echo "$1: $2"
    else
        echo "$1: WRONG; on standard error:" && cat "$room/said" && echo "on standard output:" && cat "$room/wrote"
        wrong=1
    fi
}
for program in span session newer older; do
    case $program in span) what='a line' ;; session) what='a reply' ;; *) what='the output' ;; esac
    start=$(./run --command "$program")
    input=crates/$program/stdin
    run() { "$start" 2>"$room/said"; }

    : >"$room/wrote"
    run <"$input" >/dev/full
    is "$program, a full disk" "$program: $what could not be written: No space left on device" ''
    run <"$input" >&-
    is "$program, no output" "$program: $what could not be written: Bad file descriptor" ''
    (trap '' PIPE && sleep 1 && run <"$input") | : # which is gone by then
    is "$program, nobody reads" "$program: $what could not be written: Broken pipe" ''
    run </ >"$room/wrote"
    is "$program, a directory" "$program: the input could not be read to its end: Is a directory" ''
    run <&- >"$room/wrote"
    is "$program, no input" "$program: the input could not be read to its end: Bad file descriptor" ''
done
exit "$wrong"
