"""SoapySDR with its rfspace module on the station.

    with_soapysdr.py DEVICE HZ:DB ...      the tones that air sends, the strongest first
"""
import sys
import time

import numpy as np
import SoapySDR
from SoapySDR import SOAPY_SDR_CF32, SOAPY_SDR_RX

import heard

tones = heard.tones(sys.argv[2:])
radio = SoapySDR.Device(sys.argv[1])


def tune(centre):
    radio.setFrequency(SOAPY_SDR_RX, 0, centre)
    got = radio.getFrequency(SOAPY_SDR_RX, 0)
    if got != centre:
        heard.fail(f"SoapySDR: asked for {centre} Hz, it says {got:.0f}")


def take(stream, count):
    # always room for more than a packet: the module writes a whole one, however little it is told that there is
    room = radio.getStreamMTU(stream)
    samples = np.zeros(count + room, np.complex64)
    have = 0
    latest = time.monotonic() + 20
    while have < count and time.monotonic() < latest:
        got = radio.readStream(stream, [samples[have:]], room).ret
        if got < 0:
            heard.fail(f"SoapySDR: after {have} samples the stream says {got}")
        have += got
    return samples[:have]


for rate, centre, other in (200_000, 14_010_000, 14_030_000), (500_000, 14_100_000, 13_950_000):
    radio.setSampleRate(SOAPY_SDR_RX, 0, rate)
    got = radio.getSampleRate(SOAPY_SDR_RX, 0)
    if got != rate:
        heard.fail(f"SoapySDR: asked for {rate} samples a second, it says {got:.0f}")
    tune(centre)
    stream = radio.setupStream(SOAPY_SDR_RX, SOAPY_SDR_CF32, [0])
    radio.activateStream(stream)
    first = take(stream, 3 * rate)
    tune(other)
    take(stream, rate // 2)  # what was on its way is in these
    second = take(stream, 2 * rate)
    radio.deactivateStream(stream)
    radio.closeStream(stream)
    heard.hold("SoapySDR", first, rate, centre, tones)
    heard.hold("SoapySDR, tuned while it runs", second, rate, other, tones)
