#!/usr/bin/env python3
"""Writes a reel to standard output: 16-bit little-endian PCM, mono, a voice made by arithmetic.

make_reel.py PERIOD:FRAMES...   so many frames of a voice of this period, one after the other; period 0 is silence.
Reel one is 62:40000, a man's voice. Reel two is 62:24000 34:16000, a woman's voice after it.
A voice has four harmonics under noise. The noise is a linear congruential generator's: s becomes s·1,664,525 + 1,013,904,223
modulo 2^32, and its upper half is used.
"""
import math
import sys

HARMONICS = ((1, 6000), (2, 3000), (3, 1500), (4, 700))


def voice(period):
    """The samples of one period."""
    return [round(sum(level * math.sin(2 * math.pi * k * t / period) for k, level in HARMONICS)) for t in range(period)]


def reel(parts):
    s = 0
    for period, frames in parts:
        wave = voice(period)
        for t in range(frames):
            s = (s * 1664525 + 1013904223) % 2**32
            yield wave[t % period] + (s // 65536 - 32768) // 256 if period else 0


def main():
    if len(sys.argv) < 2:
        sys.exit(__doc__)
    parts = [tuple(int(n) for n in word.split(":")) for word in sys.argv[1:]]
    sys.stdout.buffer.write(b"".join(v.to_bytes(2, "little", signed=True) for v in reel(parts)))


main()
