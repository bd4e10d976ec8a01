#!/usr/bin/env python3
"""The cases of span_cases, and what it must print of them, from document 01 and requests Nos. 1, 7 and 9 of 02 alone:

    python3 expected.py stdin > stdin; python3 expected.py stdout > stdout

Written beside the library and not from it: inputs are bytes, packets are read one after the other with their positions
kept in a list, and a line is made where 01 says so. How an input is cut does not come into it, so each way prints the same.
"""

import sys

# header, total, bits, pairs of "Packets and numbers"
LARGE24 = (b"\xa4\x85", 1444, 24, 240)
SMALL24 = (b"\x84\x81", 388, 24, 64)
LARGE16 = (b"\x04\x84", 1028, 16, 256)
SMALL16 = (b"\x04\x82", 516, 16, 128)
FORMS = [LARGE24, SMALL24, LARGE16, SMALL16]
OF_HEAD = {(0x80, 0): LARGE24, (0x80, 1): SMALL24, (0x00, 0): LARGE16, (0x00, 1): SMALL16}
# the same of two channels, "mode byte bit 6 set"
OF_TWO = {(0xC0, 0): LARGE24, (0xC0, 1): SMALL24, (0x40, 0): LARGE16, (0x40, 1): SMALL16}
# "pairs per channel are 120, 32, 128 and 64"
PAIRS_OF_TWO = {LARGE24: 120, SMALL24: 32, LARGE16: 128, SMALL16: 64}


def little(n, width):
    return n.to_bytes(width, "little")


def head(d=100, hz=10_000_000, mode=0x80, size=1, mark=b"SPN", version=1):
    return mark + little(version, 2) + little(d, 2) + little(hz, 5) + bytes([mode, size])


def newer(serial=b"MT123456", clock=79_992_000, **values):
    return head(version=2, **values) + serial + little(clock, 4)


def packet(form, number):
    start = form[0] + little(number, 2)
    return start + bytes(form[1] - len(start))


def number(data, at, width):
    return int.from_bytes(data[at : at + width], "little")


def named(serial, clock):
    """Serial and clock of a head of version 2 are allowed."""
    known = len(serial) == 8 and all(chr(b) in "ABCDEFGHIJKLMNOPQRSTUVWXYZ0123456789" for b in serial)
    return (known or serial == bytes(8)) and 79_992_000 <= clock <= 80_008_000


def head_code(data):
    if len(data) < 14 or data[:3] != b"SPN":
        return 40
    version = number(data, 3, 2)
    if version not in (1, 2):
        return 41
    if version == 2 and (len(data) < 26 or not named(data[14:22], number(data, 22, 4))):
        return 40
    d = number(data, 5, 2)
    hz = number(data, 7, 5)
    band = 100_000 <= hz <= 34_000_000 or 140_000_000 <= hz <= 150_000_000
    if not 10 <= d <= 625 or not band or (data[12], data[13]) not in OF_HEAD | OF_TWO:
        return 40
    return 0


def report(data):
    yield "SPAN 1"
    code = head_code(data)
    if code:
        yield f"R {code} 0"
        return
    d = number(data, 5, 2)
    form = (OF_HEAD | OF_TWO)[data[12], data[13]]
    pairs = PAIRS_OF_TWO[form] if (data[12], data[13]) in OF_TWO else form[3]
    at, clock = (26, number(data, 22, 4)) if number(data, 3, 2) == 2 else (14, 80_000_000)
    captures, positions, last = 0, [], 0

    def line():
        covered = positions[-1] + 1
        samples = covered * pairs
        missed = sum(after - before - 1 for before, after in zip(positions, positions[1:]))
        time = samples * 4 * d * 1_000_000 // clock
        return f"C {captures} {form[2]} {pairs} {len(positions)} {covered} {samples} {time} {missed}"

    while at < len(data):
        found = [f for f in FORMS if data[at : at + 2] == f[0] and at + f[1] <= len(data)]
        t = number(data, at + 2, 2)
        step = t - last if t > last else t - last + 65535
        if not found:
            code = 30
        elif found[0] is not form:
            code = 32
        elif t and not positions:
            code = 31
        elif t and positions[-1] + step > 3_999_999_999:
            code = 33
        if code:
            if positions:
                yield line()
            yield f"R {code} {at}"
            return
        if t == 0:
            if positions:
                yield line()
            captures, positions = captures + 1, [0]
        else:
            positions.append(positions[-1] + step)
        last, at = t, at + form[1]
    if positions:
        yield line()
    yield f"E {captures}"


def line_of(name, data):
    """The case as the program reads it."""
    at = 26 if number(data, 3, 2) == 2 else 14
    words = [data[:at].hex().upper()]
    while at < len(data):
        total = next((f[1] for f in FORMS if data[at : at + 2] == f[0]), 0)
        short = at + total - len(data)
        if total and short <= 1:
            words.append(data[at : at + 4].hex().upper() + ("*-" if short == 1 else "*"))
            at += total
        else:
            words.append(data[at:].hex().upper())
            at = len(data)
    return f"{name}: {' '.join(words)}".rstrip()


def small(*numbers):
    return b"".join(packet(SMALL24, n) for n in numbers)


CASES = [
    ("the worked example", head() + small(0, 1, 4)),
    ("one packet", head() + small(0)),
    ("none lost", head() + small(0, 1, 2)),
    ("losses", head() + small(0, 7, 8, 100)),
    ("time rounded down", head(d=11) + small(0)),
    ("a restart", head() + small(0, 1, 0, 3)),
    ("restarts only", head() + small(0, 0, 0)),
    ("up to 65535", head() + small(0, 65535)),
    ("past the turn", head() + small(0, 65534, 65535, 1, 4)),
    ("a number again", head() + small(0, 7, 7)),
    ("three turns", head() + small(0, 40000, 30000, 20000, 1)),
    ("24 bits, large", head(size=0) + packet(LARGE24, 0) + packet(LARGE24, 2)),
    ("24 bits, small", head(d=10) + small(0, 2)),
    ("16 bits, large", head(d=625, mode=0, size=0) + packet(LARGE16, 0) + packet(LARGE16, 2)),
    ("16 bits, small", head(d=360, mode=0) + packet(SMALL16, 0) + packet(SMALL16, 2)),
    ("empty input", b""),
    ("one byte", b"S"),
    ("a head of 13 bytes", head()[:13]),
    ("a head alone", head()),
    ("wrong mark", head(mark=b"SPM") + small(0)),
    ("wrong mark, too short", b"XYZ"),
    ("another version", head(version=3) + small(0)),
    ("another version, no D", head(version=256, d=0)),
    ("wrong mark, another version", head(mark=b"NPS", version=3)),
    ("version 2", newer() + small(0, 1, 4)),
    ("version 2 of an unknown box", newer(serial=bytes(8), clock=80_000_000) + small(0, 1, 4)),
    ("the least clock", newer(d=10) + small(0, 46_874)),
    ("the greatest clock", newer(d=10, clock=80_008_000) + small(0, 46_874)),
    ("version 2, large", newer(d=625, mode=0, size=0, clock=80_008_000) + packet(LARGE16, 0) + packet(LARGE16, 65_535)),
    ("version 2 alone", newer()),
    ("version 2 of 25 bytes", newer()[:25]),
    ("version 2 of 14 bytes", newer()[:14]),
    ("version 2 of 13 bytes", newer()[:13]),
    ("wrong mark, version 2", newer(mark=b"SPM") + small(0)),
    ("version 2, D = 9", newer(d=9) + small(0)),
    ("a zero in the serial", newer(serial=b"MT12345\0") + small(0)),
    ("a small letter in the serial", newer(serial=b"MT12345a") + small(0)),
    ("clock 79991999", newer(clock=79_991_999) + small(0)),
    ("clock 80008001", newer(clock=80_008_001) + small(0)),
    ("version 2, rubbish", newer() + b"\0\0"),
    ("version 2, rubbish in a capture", newer() + small(0, 1) + b"\xff\xff\xff"),
    ("version 2, another form", newer() + small(0) + packet(SMALL16, 1)),
    ("D = 9", head(d=9) + small(0)),
    ("D = 626", head(d=626)),
    ("34000001 Hz", head(hz=34_000_001)),
    ("two channels", head(hz=14_010_000, mode=0xC0) + small(0, 1, 4)),
    ("two channels, 24 bits, large", head(d=10, mode=0xC0, size=0) + packet(LARGE24, 0) + packet(LARGE24, 2)),
    ("two channels, 16 bits, large", head(d=625, mode=0x40, size=0) + packet(LARGE16, 0) + packet(LARGE16, 2)),
    ("two channels, 16 bits, small", head(d=360, mode=0x40) + packet(SMALL16, 0) + packet(SMALL16, 2)),
    ("two channels, time rounded down", head(d=11, mode=0xC0) + small(0)),
    ("two channels, a restart", head(mode=0xC0) + small(0, 1, 0, 3)),
    ("two channels, another form", head(mode=0xC0) + small(0, 1) + packet(SMALL16, 2)),
    ("two channels, a packet cut off", head(mode=0x40) + packet(SMALL16, 0) + packet(SMALL16, 1)[:7]),
    ("two channels, version 2", newer(hz=14_010_000, mode=0xC0) + small(0, 1, 4)),
    ("two channels, version 2, large", newer(d=625, mode=0x40, size=0, clock=80_008_000) + packet(LARGE16, 0) + packet(LARGE16, 65_535)),
    ("mode 20", head(mode=0x20)),
    ("mode 60", head(mode=0x60)),
    ("mode C1", head(mode=0xC1)),
    ("mode C1, version 2", newer(mode=0xC1)),
    ("two channels, size 2", head(mode=0xC0, size=2)),
    ("size 2", head(size=2)),
    ("rubbish", head() + b"rubbish"),
    ("rubbish in a capture", head() + small(0, 1) + b"\xff\xff\xff"),
    ("packets after rubbish", head() + small(0) + b"\x84\x61\x00\x00\x84\x81\x00\x00"),
    ("a length that no form has", head() + small(0) + b"\x85\x81" + little(1, 2) + small(2)[:4]),
    ("a packet cut off", head() + small(0, 1) + small(2)[:7]),
    ("cut off after one byte", head() + small(0, 1) + small(2)[:1]),
    ("cut off by one byte", head() + small(0, 1) + small(2)[:-1]),
    ("cut off after its header", head() + small(0) + small(1)[:2]),
    ("a new capture cut off", head() + small(0) + small(0)[:5]),
    ("the first packet cut off", head() + small(0)[:5]),
    ("another form", head() + small(0, 1) + packet(SMALL16, 2)),
    ("another form at once", head() + packet(LARGE24, 0)),
    ("another form, numbered 0", head() + small(0) + packet(LARGE16, 0)),
    ("32 before 31", head() + packet(SMALL16, 5)),
    ("30 before 32", head() + small(0) + packet(SMALL16, 1)[:5]),
    ("30 before 31", head() + small(5)[:5]),
    ("packets after a refusal", head() + small(0) + packet(SMALL16, 1) + small(2, 0)),
    ("no packet numbered 0 yet", head() + small(5, 0)),
    ("nothing but 65535", head() + small(65535)),
]

WAYS = ["whole", "byte by byte", "pieces of 7", "pieces of 389"]
# 61,036 full turns behind position 5,739, the last, and behind 5,740
TURNS = [(f"to position {n + 61036 * 65535}", head() + small(0) + small(n) * 61037) for n in [5739, 5740]]

if sys.argv[1:] == ["stdin"]:
    for name, data in CASES:
        print(line_of(name, data))
else:
    for name, data in CASES:
        for way in WAYS:
            print(f"{name}: {way}", *report(data), sep="\n")
    for name, data in TURNS:
        print(f"{name}: packet by packet", *report(data), sep="\n")
