#!/usr/bin/env python3
"""Writes a small raw picture: a sensor's mosaic of a landscape at dusk, as a camera might have seen it.

Usage: make_source.py OUT.pgm

The picture is a P5 of 360 by 240 samples, 14 bits each, in the colour filter array RGGB. It is underexposed, has a
black level of 512, and its red and blue are weak, as those of most sensors are: all of that is left to the edit script.
The same bytes come out each time.
"""
import math
import sys

WIDTH, HEIGHT = 360, 240
BLACK, WHITE = 512, 15360
# How much of each colour's light the sensor keeps: the script's temperature makes up for it.
KEEPS = (0.5, 1.0, 0.64)
HORIZON = 150
SUN = (250, 112)


def ridge(x, base, height, steps):
    """The upper edge of a range of hills, in rows from the top, above column x."""
    return base - sum(height / n * math.sin(x / 360 * 2 * math.pi * n * step + n) for n, step in enumerate(steps, 1))


def mix(a, b, t):
    return tuple(p + (q - p) * t for p, q in zip(a, b))


def scene(x, y):
    """Red, green and blue of the light from there, 0 to 1."""
    far, near = ridge(x, 128, 9, (1.5, 2.2, 3.1)), ridge(x, 141, 6, (1, 3.3))
    if y >= HORIZON:
        up = scene(x + 1.5 * math.sin(y * 0.9), 2 * HORIZON - 1 - y)
        return mix(up, (0.02, 0.04, 0.06), 0.35 + 0.3 * (y - HORIZON) / (HEIGHT - HORIZON))
    if y > near:
        return mix((0.03, 0.05, 0.04), (0.07, 0.08, 0.06), (y - near) / 20)
    if y > far:
        return mix((0.10, 0.10, 0.14), (0.16, 0.13, 0.15), (y - far) / 20)
    sky = mix((0.22, 0.34, 0.62), (0.95, 0.62, 0.38), (y / HORIZON) ** 1.6)
    away = math.hypot(x - SUN[0], y - SUN[1])
    return mix(sky, (1.0, 0.93, 0.75), min(1.0, math.exp(-max(0.0, away - 9) / 22)))


def sample(x, y):
    """What the sensor reads in column x and row y."""
    colour = (0, 1, 1, 2)[x % 2 + 2 * (y % 2)]
    light = max(0.0, min(1.0, scene(x, y)[colour])) * KEEPS[colour] * 0.45
    grain = ((x * 7919 + y * 104729 + x * y * 31) % 97 - 48) * 0.4
    return max(0, min(16383, round(BLACK + light * (WHITE - BLACK) + grain)))


def main():
    raster = bytearray()
    for y in range(HEIGHT):
        for x in range(WIDTH):
            raster += sample(x, y).to_bytes(2, "big")
    with open(sys.argv[1], "wb") as out:
        out.write(b"P5\n%d %d\n16383\n" % (WIDTH, HEIGHT) + raster)


if __name__ == "__main__":
    main()
