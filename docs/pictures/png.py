#!/usr/bin/env python3
"""Turns a P6 of 8 bits a sample, as devcore writes it, into a PNG with the same pixels.

Usage: png.py IN.ppm OUT.png
"""
import struct
import sys
import zlib


def chunk(kind, data):
    return struct.pack(">I", len(data)) + kind + data + struct.pack(">I", zlib.crc32(kind + data))


def differences(row):
    """A row as what each sample has beyond the one of the pixel to its left: PNG's filter 1."""
    return bytes((a - b) % 256 for a, b in zip(row, b"\0\0\0" + row))


def png_of(ppm):
    """The PNG of a P6's bytes."""
    magic, sides, top, raster = ppm.split(b"\n", 3)
    assert magic == b"P6" and top == b"255", "a P6 of 8 bits is wanted"
    width, height = map(int, sides.split())
    rows = [raster[3 * width * y : 3 * width * (y + 1)] for y in range(height)]
    packed = zlib.compress(b"".join(b"\1" + differences(row) for row in rows), 9)
    head = struct.pack(">IIBBBBB", width, height, 8, 2, 0, 0, 0)
    return b"\x89PNG\r\n\x1a\n" + chunk(b"IHDR", head) + chunk(b"IDAT", packed) + chunk(b"IEND", b"")


def main():
    with open(sys.argv[1], "rb") as file:
        ppm = file.read()
    with open(sys.argv[2], "wb") as file:
        file.write(png_of(ppm))


if __name__ == "__main__":
    main()
