"""What CuteSDR recorded from the station: its samples, as a WAVE file.

    with_wave.py FILE CENTRE HZ:DB ...      the tones that air sends, the strongest first
"""
import sys
import wave

import numpy as np

import heard

with wave.open(sys.argv[1], "rb") as file:
    bytes_each, rate = file.getsampwidth(), file.getframerate()
    if (bytes_each, file.getnchannels()) != (3, 2):
        heard.fail(f"CuteSDR recorded {file.getnchannels()} channels of {bytes_each} bytes, not I and Q of 3")
    raw = np.frombuffer(file.readframes(file.getnframes()), np.uint8)
# three bytes to the upper ones of four
wide = np.zeros((len(raw) // 3, 4), np.uint8)
wide[:, 1:] = raw[: len(raw) // 3 * 3].reshape(-1, 3)
parts = wide.view("<i4").reshape(-1, 2) / 2.0**31
heard.hold("CuteSDR, its own recording", parts[:, 0] + 1j * parts[:, 1], rate, int(sys.argv[2]), heard.tones(sys.argv[3:]))
