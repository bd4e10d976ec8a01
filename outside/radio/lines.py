"""Where the lines of a waterfall stand in a picture of a radio program's window.

    lines.py PROGRAM PICTURE CENTRE SPAN HZ:DB ...      CENTRE and SPAN in Hz of what the program's plot shows

A row of the waterfall is a run of black pixels with few others in it; its ends are the plot's edges. The picture is read by
Debian's ImageMagick.
"""
import subprocess
import sys

import numpy as np

import heard

WITHIN = 1.5  # pixels: a line is about three wide
ROWS = 20  # of the waterfall, at least

program, picture = sys.argv[1:3]
centre, span = map(int, sys.argv[3:5])
tones = heard.tones(sys.argv[5:])
ppm = subprocess.run(["/usr/bin/convert", picture, "-depth", "8", "ppm:-"], stdout=subprocess.PIPE, check=True).stdout
_, size, _, pixels = ppm.split(b"\n", 3)
width, height = map(int, size.split())
bright = np.frombuffer(pixels, np.uint8).reshape(height, width, 3).max(axis=2)


def runs(row):
    """Where runs of True begin and end."""
    edges = np.flatnonzero(np.diff(np.concatenate(([0], row.astype(np.int8), [0]))))
    return list(zip(edges[::2], edges[1::2]))


def lines(row):
    """The plot's edges and the middles of the lines in it, where this is a row of the waterfall."""
    black = [run for run in runs(row < 50) if run[1] - run[0] > 10]
    if len(black) != len(tones) + 1:
        return None
    gaps = [(left[1], right[0]) for left, right in zip(black, black[1:])]
    if any(end - begin > 8 for begin, end in gaps):
        return None
    return [black[0][0], black[-1][1], *((begin + end) / 2 for begin, end in gaps)]


rows = [found for found in map(lines, bright) if found]
if len(rows) < ROWS:
    heard.fail(f"{program}, its picture: {len(rows)} rows with {len(tones)} lines in them, fewer than {ROWS}")
left, right, *seen = np.median(np.array(rows), axis=0)
good = True
say = []
for at, (hz, _) in zip(seen, sorted(tones)):
    expected = left + (right - left) * ((hz - centre) / span + 0.5)
    good = good and abs(at - expected) <= WITHIN
    say.append(f"{hz} Hz at {at:.1f} (expected {expected:.1f})")
heard.say(good, f"{program}, its picture, of which the plot is from pixel {left:.0f} to {right:.0f}: " + ", ".join(say))
