#!/usr/bin/env python3
"""Reading 24 megapixels and the kernels of raw modules, beside plain C, in one run.

Usage: bench/raw_kernels/run.py [--rounds N]; wants rt and a C compiler. It proves and builds the program `main.rt.txt` in a
temporary folder, and leaves nothing behind. Prints medians of milliseconds, and how many times C's time they are."""
import os, random, shutil, statistics, subprocess, sys, tempfile

here = os.path.dirname(os.path.abspath(__file__))
top = os.path.dirname(os.path.dirname(here))
rounds = int(sys.argv[sys.argv.index("--rounds") + 1]) if "--rounds" in sys.argv else 5
crates = ["px", "params", "pnm", "modules_raw"]


def built(work):
    """The proved program and the C program."""
    for name in crates:
        shutil.copytree(os.path.join(top, "crates", name), os.path.join(work, "crates", name),
                        ignore=lambda folder, names: {n for n in names if n in ("out", "must-fail")})
    lines = [l for l in open(os.path.join(top, "crates.txt")) if l.split(":")[0] in crates]
    open(os.path.join(work, "crates.txt"), "w").write("".join(lines) + "raw_times: px params pnm modules_raw\n")
    shutil.copy(os.path.join(top, "HANDLES"), work)
    folder = os.path.join(work, "crates", "raw_times")
    os.makedirs(os.path.join(folder, "src"))
    shutil.copy(os.path.join(here, "main.rt.txt"), os.path.join(folder, "src", "main.rt"))
    open(os.path.join(folder, "stdin"), "w").close()
    log = subprocess.run([os.environ.get("RT", "rt"), "run"], cwd=folder, capture_output=True, text=True)
    program = os.path.join(folder, "out", "raw_times")
    if not os.path.exists(program):
        sys.exit(log.stdout[-3000:] + log.stderr[-1000:])
    plain = os.path.join(work, "kernels")
    subprocess.run([os.environ.get("CC", "cc"), "-O2", "-pthread", "-o", plain, os.path.join(here, "kernels.c")], check=True)
    return program, plain


def picture(path, magic, greatest):
    """A picture of 6000 by 4000 pixels of noise."""
    wide = greatest > 255
    samples = 24_000_000 * (3 if magic == b"P6" else 1)
    block = bytearray()
    draw = random.Random(1)
    for _ in range(100_000):
        s = draw.randrange(greatest + 1)
        block += s.to_bytes(2, "big") if wide else bytes([s])
    with open(path, "wb") as out:
        out.write(b"%s\n6000 4000\n%d\n" % (magic, greatest))
        for _ in range(samples // 100_000):
            out.write(block)


def times(program, words):
    """The nanoseconds by name."""
    lines = subprocess.run([program] + words, capture_output=True, text=True, check=True).stdout.split("\n")
    return {l.split()[0]: int(l.split()[1]) for l in lines if l}


work = tempfile.mkdtemp()
try:
    program, plain = built(work)
    print("%-22s %-12s %9s %9s %6s" % ("picture", "what", "ms", "C, ms", "times"))
    for title, magic, greatest, words in [("P6, 8 bits", b"P6", 255, []), ("P6, 16 bits", b"P6", 65535, []), ("P5 grey, 8 bits", b"P5", 255, []),
                                          ("P5 grey, 16 bits", b"P5", 16383, []), ("P5 mosaic, 8 bits", b"P5", 255, ["mosaic"]),
                                          ("P5 mosaic, 16 bits", b"P5", 16383, ["mosaic"])]:
        path = os.path.join(work, "picture")
        picture(path, magic, greatest)
        ours, theirs = [], []
        for _ in range(rounds):
            ours.append(times(program, [path] + words))
            theirs.append(times(plain, [path] + words))
        for name in theirs[0]:
            a = statistics.median(t[name] for t in ours) / 1e6
            b = statistics.median(t[name] for t in theirs) / 1e6
            print("%-22s %-12s %9.1f %9.1f %6.2f" % (title, name, a, b, a / b))
finally:
    shutil.rmtree(work)
