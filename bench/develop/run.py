#!/usr/bin/env python3
"""`devcore develop` with one exposure beside a plain C program that does the same steps, in the same run.

run.py [--rounds N]: medians of N (5) interleaved rounds, as ratios, at 0.24, 2.4 and 24 megapixels; peak memory in bytes a
pixel; and whether both wrote the same bytes. Outside the gate. Needs gcc and Python 3; the program is built by bin/devcore.
"""
import os, resource, statistics, subprocess, sys, tempfile, time

here = os.path.dirname(os.path.abspath(__file__))
top = os.path.join(here, "..", "..")
rounds = int(sys.argv[sys.argv.index("--rounds") + 1]) if "--rounds" in sys.argv else 5
SIZES = [(600, 400), (1896, 1264), (6000, 4000)]
BLACK, GAIN = 514, 6144


def picture(path, w, h):
    row = bytearray(3 * w)
    with open(path, "wb") as f:
        f.write(b"P6\n%d %d\n255\n" % (w, h))
        for y in range(h):
            for x in range(0, 3 * w, 3):
                row[x] = (x * 7 + y * 3) & 255
                row[x + 1] = (x ^ y) & 255
                row[x + 2] = (x * y >> 4) & 255
            f.write(row)


def timed(command):
    before = time.monotonic()
    child = subprocess.Popen(command, stdout=subprocess.DEVNULL)
    _, status, usage = os.wait4(child.pid, 0)
    if status != 0:
        sys.exit("%s failed" % command)
    return time.monotonic() - before, usage.ru_utime + usage.ru_stime, usage.ru_maxrss * 1024


def main():
    program = os.path.join(top, "crates", "devcore", "out", "devcore")
    if not os.path.exists(program):
        subprocess.run([os.path.join(top, "bin", "devcore"), "--help"], stdout=subprocess.DEVNULL)
    with tempfile.TemporaryDirectory() as folder:
        naive = os.path.join(folder, "naive")
        subprocess.run(["gcc", "-O2", "-o", naive, os.path.join(here, "naive.c")], check=True)
        script = os.path.join(folder, "script.json")
        with open(script, "w") as f:
            f.write('{"steps":[{"do":"set","module":"exposure","params":{"black":%d,"gain":%d}}]}' % (BLACK, GAIN))
        a, b = os.path.join(folder, "a.ppm"), os.path.join(folder, "b.ppm")
        per_pixel = []
        for w, h in SIZES:
            source = os.path.join(folder, "source.ppm")
            picture(source, w, h)
            ours, plain = [], []
            for _ in range(rounds):
                ours.append(timed([program, "develop", script, source, a]))
                plain.append(timed([naive, source, b, str(BLACK), str(GAIN)]))
            same = open(a, "rb").read() == open(b, "rb").read()
            wall, cpu = (statistics.median(t[k] for t in ours) / statistics.median(t[k] for t in plain) for k in (0, 1))
            peak = max(t[2] for t in ours) / (w * h)
            per_pixel.append(statistics.median(t[0] for t in ours) / (w * h))
            print("%4dx%-4d  wall %.2f times C  processor %.2f times C  peak %.1f bytes a pixel (C %.1f)  same bytes: %s"
                  % (w, h, wall, cpu, peak, max(t[2] for t in plain) / (w * h), "yes" if same else "NO"))
        print("time a pixel at 24 megapixels is %.2f of that at 2.4" % (per_pixel[2] / per_pixel[1]))


main()
