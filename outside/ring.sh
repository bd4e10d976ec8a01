#!/bin/sh
# ring.sh: the whole ring on this machine. A station is on the air and loses, repeats and delays packets on purpose; the
# recorder writes captures of it past a turn of the number, with one channel and with two; span reads them. What span says
# of a file, what the recorder said last, and what the station says that it cut and sent have to be the same line.
#
#     outside/ring.sh [SECONDS]      each capture so long (4 by default: 31,250 packets a second, so that a turn, which is
#                                    2.1 seconds, is crossed)
set -eu
seconds=${1:-4}
cd "$(dirname "$0")"
programs=$(./onair.sh --build)
port=20123
room=$(mktemp -d)
air=
cleanup() {
    [ -z "$air" ] || kill "$air" 2>/dev/null || :
    rm -rf "$room"
}
trap cleanup EXIT
trap 'exit 1' INT TERM
passed=0
failed=0

# NAME AIR-WORDS RECORD-WORDS: one capture, by a station of its own
ring() {
    name=$1
    # words of a command in a string, split on purpose
    # shellcheck disable=SC2086
    "$programs/air" --listen 127.0.0.1:$port $2 >"$room/air" 2>"$room/air-says" &
    air=$!
    tries=0
    until grep -q listening "$room/air-says"; do
        tries=$((tries + 1))
        [ $tries -lt 50 ] || { cat "$room/air-says" && exit 1; }
        sleep 0.1
    done
    rm -f "$room/night.spn"
    # shellcheck disable=SC2086
    "$programs/record" --from 127.0.0.1:$port $3 --for "$seconds" "$room/night.spn" \
        >"$room/record" 2>"$room/record-says" && recorded=0 || recorded=$?
    kill -INT "$air"
    wait "$air" && sent=0 || sent=$?
    air=
    : >"$room/span"
    [ ! -f "$room/night.spn" ] || "$programs/span" <"$room/night.spn" >"$room/span"
    cut=$(cat "$room/air")
    written=$(tail -n 1 "$room/record")
    read=$(sed -n 2p "$room/span")
    ended=$(sed -n 3p "$room/span")
    late=$(sed -n 's/.*late \([0-9]*\).*/\1/p' "$room/record-says" | tail -n 1)
    if [ -n "$cut" ] && [ "$cut" = "$read" ] && [ "$cut" = "$written" ] && [ "$ended" = 'E 1' ] && [ "$recorded $sent" = '0 0' ]; then
        passed=$((passed + 1))
        echo "$name: $read"
        echo "    air:    $(sed -n 's/^air: capture 1 ends: //p' "$room/air-says")"
        echo "    record: late $late"
    else
        failed=$((failed + 1))
        echo "$name: NOT THE SAME, or not as asked (record ended with $recorded, air with $sent)"
        printf '    air    %s\n    record %s\n    span   %s / %s\n' "$cut" "$written" "$read" "$ended"
        cat "$room/air-says" "$room/record-says"
    fi
}

tones='--tone 14020000 --tone 14045000:-40 --tone 14130000:-30'
ring 'one channel, 24 bits, losses' "$tones --lose 300" '--hz 14010000 --rate 2000000 --size small'
ring 'two channels, 16 bits, losses' "$tones --lose 300" \
    '--hz 14010000 --second 14110000 --rate 2000000 --bits 16 --size small'
ring 'one channel, 24 bits, lost, repeated and late' "$tones --lose 1000 --repeat 500 --late 500" \
    '--hz 14010000 --rate 2000000 --size small'
ring 'two channels, 24 bits, lost, repeated and late' "$tones --lose 1000 --repeat 500 --late 500" \
    '--hz 14010000 --second 14110000 --rate 1000000 --size small'
ring 'large packets, nothing lost' "$tones" '--hz 14010000 --rate 200000'
echo "$passed passed, $failed failed"
[ "$failed" -eq 0 ]
