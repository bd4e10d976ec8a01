"""What a radio program received, held against the tones that the station sends.

The scale: 0 dB is full scale, a complex sample of length 1 (32,768 of 16 bits, 8,388,608 of 24).
"""
import sys

import numpy as np

LENGTH = 65536  # of the spectrum: at 200,000 samples a second the lines are 3 Hz apart
BLOCK = 1024  # samples of which one phase is taken
LEVEL = 0.1  # dB
PHASE = 1.0  # degrees


def say(good, what):
    print(("PASS " if good else "FAIL ") + what, flush=True)
    return good


def window(length):
    """Blackman and Harris's of four terms: what lies four lines away is 92 dB down, so that tones do not touch each other."""
    at = 2 * np.pi * np.arange(length) / length
    w = 0.35875 - 0.48829 * np.cos(at) + 0.14128 * np.cos(2 * at) - 0.01168 * np.cos(3 * at)
    return w / w.sum()


def strongest(samples, rate):
    """The strongest line's frequency, from the centre."""
    spectrum = np.abs(np.fft.fft(samples[:LENGTH] * window(LENGTH)))
    return np.fft.fftfreq(LENGTH, 1 / rate)[spectrum.argmax()]


def level(samples, rate, offset):
    """The level in dB of what is at this frequency from the centre."""
    turns = np.arange(LENGTH) * (offset / rate)
    return 20 * np.log10(max(1e-12, abs((samples[:LENGTH] * window(LENGTH) * np.exp(-2j * np.pi * turns)).sum())))


def jump(samples, rate, offset):
    """How far the tone's phase leaves a straight line, in degrees. A packet that is missing, repeated or swapped turns it."""
    w = window(BLOCK) * np.exp(-2j * np.pi * np.arange(BLOCK) * (offset / rate))
    count = len(samples) // BLOCK
    parts = [
        (np.asarray(samples[at * BLOCK : min(at + 4096, count) * BLOCK]).reshape(-1, BLOCK) * w).sum(axis=1)
        for at in range(0, count, 4096)
    ]
    at = np.arange(count)
    phase = np.unwrap(np.angle(np.concatenate(parts) * np.exp(-2j * np.pi * ((at * (BLOCK * offset / rate)) % 1))))
    return float(np.degrees(np.abs(phase - np.polyval(np.polyfit(at, phase, 1), at)).max()))


def hold(what, samples, rate, centre, tones):
    """Each tone, (Hz, dB), the strongest first: at its place, of its level, and its phase without a jump."""
    if len(samples) < LENGTH:
        return say(False, f"{what}: {len(samples)} samples came, too few to tell")
    resolution = rate / LENGTH
    found = centre + strongest(samples, rate)
    levels = [level(samples, rate, hz - centre) for hz, _ in tones]
    turned = jump(samples, rate, tones[0][0] - centre)
    good = abs(found - tones[0][0]) <= resolution
    good = good and all(abs(seen - sent) <= LEVEL for seen, (_, sent) in zip(levels, tones)) and turned <= PHASE
    return say(
        good,
        f"{what}: {len(samples)} samples at {rate:.0f} a second, tuned to {centre}; strongest line {found:.1f} Hz, lines are "
        f"{resolution:.1f} apart; "
        + ", ".join(f"{hz} Hz {seen:.2f} dB (sent {sent:g})" for seen, (hz, sent) in zip(levels, tones))
        + f"; phase straight within {turned:.2f} degrees",
    )


def tones(words):
    """HZ:DB, as they were given to air."""
    return [(int(hz), float(db)) for hz, db in (word.split(":") for word in words)]


def fail(what):
    say(False, what)
    sys.exit(1)
