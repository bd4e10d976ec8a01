"""Gqrx on the station, by its remote control.

    with_gqrx.py start HZ:DB ...      starts it, and tunes it to each tone and beside it
    with_gqrx.py stop
"""
import socket
import sys
import time

import heard

PORT = 7356
WITHIN = 0.5  # dB
BESIDE = 12_000  # Hz, where there is no tone
EMPTY = -90  # dB

latest = time.monotonic() + 20
while True:
    try:
        control = socket.create_connection(("127.0.0.1", PORT), 10).makefile("rw")
        break
    except OSError:
        if time.monotonic() > latest:
            heard.fail("Gqrx: its remote control does not answer")
        time.sleep(0.2)


def ask(what):
    control.write(what + "\n")
    control.flush()
    return control.readline().strip()


def strength(hz):
    ask(f"F {hz}")
    time.sleep(1)  # its meter is slow
    return float(ask("l STRENGTH"))


if sys.argv[1] == "start":
    ask("U DSP 1")
    time.sleep(2)
    good = ask("u DSP") == "1"
    say = []
    for hz, sent in heard.tones(sys.argv[2:]):
        on, beside = strength(hz), strength(hz + BESIDE)
        good = good and abs(on - sent) <= WITHIN and beside <= EMPTY
        say.append(f"{hz} Hz {on:.1f} dB (sent {sent:g}), {BESIDE} Hz above {beside:.1f}")
    heard.say(good, f"{ask('_')}: " + "; ".join(say))
else:
    ask("U DSP 0")
    heard.say(ask("u DSP") == "0", "Gqrx, stopped: it says so")
