#!/usr/bin/env python3
"""Reading scripts of 0.25, 1 and 4 MB by `devcore develop` over one pixel: the time a megabyte, which is to stay the same.

run.py [--rounds N]: medians of N (5) rounds, less the time of an empty script. `full` is a valid script of 256 edits, wide
by white space; `many` is a list of steps that is parsed whole and refused at step 257. Outside the gate. Needs Python 3; the
program is built by bin/devcore.
"""
import os, sys, tempfile

sys.path.insert(0, os.path.join(os.path.dirname(os.path.abspath(__file__)), ".."))
from program import built, median

SIZES = [262_144, 1_048_576, 4_194_304]
STEP = '{"do":"set","module":"exposure","params":{"black":0,"gain":8192}}'
SHORT = '{"do":"compress"}'


def full(size):
    steps = [STEP] * 256
    bare = len('{"steps":[') + sum(map(len, steps)) + 255 + len("]}")
    gap = (size - bare) // 256
    text = '{"steps":[' + ",".join(" " * gap + step for step in steps)
    return text + " " * (size - len(text) - 2) + "]}"


def many(size):
    count = (size - len('{"steps":[]}') + 1) // (len(SHORT) + 1)
    text = '{"steps":[' + ",".join([SHORT] * count)
    return text + " " * (size - len(text) - 2) + "]}"


def timed(command, folder, text, status):
    with open(os.path.join(folder, "script.json"), "w") as f:
        f.write(text)
    return median(command, folder, status)


def main():
    with tempfile.TemporaryDirectory() as folder:
        with open(os.path.join(folder, "source.ppm"), "wb") as f:
            f.write(b"P6\n1 1\n255\n\x20\x20\x20")
        command = [built(), "develop", "script.json", "source.ppm", "out.ppm"]
        empty = timed(command, folder, '{"steps":[]}', 0)
        for name, text, status in [("full", full, 0), ("many", many, 2)]:
            for size in SIZES:
                took = timed(command, folder, text(size), status) - empty
                print("%s  %4.2f MB  %7.1f ms  %6.1f ms a megabyte" % (name, size / 1048576, took * 1e3, took * 1e3 / (size / 1048576)))


if __name__ == "__main__":
    main()
