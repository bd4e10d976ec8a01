#!/bin/sh
# stored.sh: the long inputs that the gate runs session, span and newer on, each over two full reads of the program and a short
# third. What is made in one read is asked for in another, and a message or packet lies across each seam.
#
#     outside/stored.sh session > crates/session/stdin
#     outside/stored.sh span > crates/span/stdin
#     outside/stored.sh newer > crates/newer/stdin
#     outside/stored.sh newer_moved > crates/newer/stdout
set -eu

zeros() { head -c "$1" /dev/zero; }
low() { printf "\\$(printf '%03o' $(($1 % 256)))"; }
number() { low "$1" && low $(($1 / 256)); } # in two bytes, the least significant first

# a data item of so many bytes, which the box takes and leaves unanswered; 8,194 stands as 0 in its header
item() {
    case $1 in 8194) number $((4 * 8192)) ;; *) number $((4 * 8192 + $1)) ;; esac
    zeros $(($1 - 2))
}
items() { for i in $(seq "$1"); do item 8194; done; }

# The box's buffer is 65,536 bytes. The first read sets frequency, gain, rate, clock and packet size, and of channel 02 the
# frequency; the second begins in the midst of setting the gain to -10, and sets 7,050,000 Hz; the third begins in the midst of a
# data item, asks for gain, frequency, rate and serial, and ends with a talk about the channels.
session() {
    # 90 bytes: name, serial, status; 14,010,000 Hz and the range; gain -20 set and asked for; a rate, the clock, the
    # acknowledgement and the data item that are unanswered, another rate, 20,000,000 Hz
    printf '\004\040\001\000\004\040\002\000\004\040\005\000'
    printf '\012\000\040\000\000\220\306\325\000\000\005\100\040\000\000'
    printf '\006\000\070\000\000\354\005\040\070\000\000'
    printf '\011\000\270\000\000\040\241\007\000\011\000\260\000\000\173\264\304\004\005\000\304\000\001'
    printf '\003\140\002\007\300\022\064\126\170\232\011\000\270\000\000\240\206\001\000'
    printf '\012\000\040\000\000\000\055\061\001\000'
    # 20 bytes: two channels, 14,010,000 Hz on channel 02, one channel, so that 02 retains it
    printf '\005\000\031\000\004\012\000\040\000\002\220\306\325\000\000\005\000\031\000\000'
    items 7
    item 8065                                    # 65,533 bytes so far
    printf '\006\000\070'                        # set the gain,
    printf '\000\000\366'                        # to -10
    printf '\012\000\040\000\000\020\223\153\000\000' # 7,050,000 Hz
    items 7
    item 8175                                    # its last ten bytes come in the third read
    printf '\005\040\070\000\000'                # the gain?
    printf '\005\040\040\000\000'                # the frequency?
    printf '\005\040\270\000\000'                # the rate?
    printf '\004\040\002\000'                    # the serial?
    channels
}

# how many channels; 02 closed, 1 not allowed; two, and 02 at what it retained, at 14,010,000 Hz, 00 at its own, the range; gain -20
# on both; FF and 01 not asked for; one channel again, 02 closed, 20,000,000 Hz by FF on 00 alone, no gain of 02; two, the
# frequencies of both; a capture, and then no other channel setup (17), no 5 (16), no range (14), no length 5 for a request (13)
channels() {
    printf '\004\040\031\000\005\040\040\000\002\005\000\031\000\001'
    printf '\005\000\031\000\004\005\040\040\000\002\012\000\040\000\002\220\306\325\000\000'
    printf '\005\040\040\000\002\005\040\040\000\000\005\100\040\000\002'
    printf '\006\000\070\000\377\354\005\040\070\000\002\005\040\040\000\377\005\040\040\000\001'
    printf '\005\000\031\000\000\005\040\040\000\002\012\000\040\000\377\000\055\061\001\000\006\000\070\000\002\000'
    printf '\005\000\031\000\004\005\040\040\000\002\005\040\040\000\000\010\000\030\000\200\002\200\000'
    printf '\005\000\031\000\004\005\000\031\000\005\004\100\031\000\005\040\031\000\000'
}

# Span's buffer is 262,144 bytes. Large packets of 16 bits, D = 100: the 255th lies across the first seam, and the 510th and
# last across the second, with six bytes in the third read. Capture 1 has 300 of them, with the numbers 7 and 8 lost;
# capture 2 has 210, with the number 100 lost.
packet() { printf '\004\204' && number "$1" && zeros 1024; }
span() {
    printf 'SPN\001\000\144\000\220\306\325\000\000\000\000'
    for n in $(seq 0 6) $(seq 9 301) $(seq 0 99) $(seq 101 210); do packet "$n"; done
}

# The same for newer, whose buffer is as long: 510 packets, each full of its own number, so that no two pieces look alike.
numbered() {
    for n in $(seq 0 509); do
        pair=$(printf '\\%03o\\%03o' $((n % 256)) $((n / 256)))
        printf '\004\204'
        printf "$pair%.0s" $(seq 513)
    done
}
head_of() { printf "SPN\\$1\000\144\000\220\306\325\000\000\000\000"; } # 14 bytes of version $1
newer() { head_of 001 && numbered; }
# and what it is in version 2: serial unknown, and 80,000,000 in four bytes
newer_moved() { head_of 002 && zeros 8 && printf '\000\264\304\004' && numbered; }

case ${1-} in
session | span | newer | newer_moved) "$1" ;;
*) sed -n '2,8s/^# \{0,1\}//p' "$0" >&2; exit 2 ;;
esac
