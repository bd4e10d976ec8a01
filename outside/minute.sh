#!/bin/sh
# minute.sh: what the ring costs at the highest rate: air sends, and record writes, 2,000,000 samples a second of 24 bits in
# small packets, 31,250 a second, on the loopback; none may be lost, and each may take half a core at most. Nothing else
# may run.
#
#     outside/minute.sh [SECONDS [RECORD-WORD ..]]     60 by default; words as for record, in the place of the usual ones
set -eu
seconds=${1:-60}
[ $# -eq 0 ] || shift
[ "$seconds" -gt 5 ] || { echo 'minute.sh: more than 5 seconds, please' >&2 && exit 2; }
[ $# -gt 0 ] || set -- --hz 14010000 --rate 2000000 --size small
cd "$(dirname "$0")"
programs=$(./onair.sh --build)
port=20124
room=$(mktemp -d)
air=
cleanup() {
    [ -z "$air" ] || kill "$air" 2>/dev/null || :
    rm -rf "$room"
}
trap cleanup EXIT
trap 'exit 1' INT TERM

# PID: the processor time that it and its children have taken, user and system, in ticks
taken() {
    for pid in "$1" $(pgrep -P "$1" || :); do
        cat "/proc/$pid/stat" 2>/dev/null || :
    done | awk '{ own += $14; kernel += $15 } END { print own + 0, kernel + 0 }'
}
ticks=$(getconf CLK_TCK)

"$programs/air" --listen 127.0.0.1:$port --tone 14020000 >"$room/air" 2>"$room/air-says" &
air=$!
sleep 1
"$programs/record" --from 127.0.0.1:$port "$@" --for "$seconds" "$room/night.spn" \
    >"$room/record" 2>"$room/record-says" &
record=$!
sleep 2
before="$(taken $air) $(taken $record)"
between=$((seconds - 4))
sleep $between
after="$(taken $air) $(taken $record)"
wait $record || echo "record ended with $?"
kill -INT $air
wait $air || :
air=
echo "$before $after" | awk -v ticks="$ticks" -v seconds="$between" '
    function share(n) { return sprintf("%.1f %%", 100 * n / ticks / seconds) }
    {
        print "air:    " share($5 + $6 - $1 - $2) " of a core, " share($6 - $2) " of it in the kernel"
        print "record: " share($7 + $8 - $3 - $4) " of a core, " share($8 - $4) " of it in the kernel, with span and the keeper"
        wrong = ($5 + $6 - $1 - $2 > ticks * seconds / 2) + ($7 + $8 - $3 - $4 > ticks * seconds / 2)
        exit wrong
    }' && wrong=0 || { wrong=1 && echo 'MORE THAN HALF A CORE'; }
cut=$(cat "$room/air")
echo "air:    $cut"
echo "record: $(tail -n 1 "$room/record")"
[ "$cut" = "$(tail -n 1 "$room/record")" ] && [ "${cut##* }" = 0 ] || {
    echo 'PACKETS WERE LOST, or the two do not agree:'
    tail -n 3 "$room/record-says"
    wrong=1
}
exit $wrong
