#!/usr/bin/env python3
"""Masks and blends over 24 megapixels, beside plain C in one thread, in one run.

Usage: bench/masks_and_blend/run.py [--rounds N]; wants rt and a C compiler. It proves and builds the program `main.rt.txt` in a
temporary folder, and leaves nothing behind. Stops where the two don't make the same. Prints medians of milliseconds, and how many
times C's time they are."""
import os, shutil, statistics, subprocess, sys, tempfile

here = os.path.dirname(os.path.abspath(__file__))
top = os.path.dirname(os.path.dirname(here))
rounds = int(sys.argv[sys.argv.index("--rounds") + 1]) if "--rounds" in sys.argv else 5
crates = ["px", "params", "masks", "blend"]
kernels = ["gradient", "ellipse", "normal", "screen"]


def built(work):
    """The proved program and the C program."""
    for name in crates:
        shutil.copytree(os.path.join(top, "crates", name), os.path.join(work, "crates", name),
                        ignore=lambda folder, names: {n for n in names if n in ("out", "must-fail")})
    lines = [l for l in open(os.path.join(top, "crates.txt")) if l.split(":")[0] in crates]
    open(os.path.join(work, "crates.txt"), "w").write("".join(lines) + "mask_times: px params masks blend\n")
    shutil.copy(os.path.join(top, "HANDLES"), work)
    folder = os.path.join(work, "crates", "mask_times")
    os.makedirs(os.path.join(folder, "src"))
    shutil.copy(os.path.join(here, "main.rt.txt"), os.path.join(folder, "src", "main.rt"))
    open(os.path.join(folder, "stdin"), "w").close()
    log = subprocess.run([os.environ.get("RT", "rt"), "run"], cwd=folder, capture_output=True, text=True)
    program = os.path.join(folder, "out", "mask_times")
    if not os.path.exists(program):
        sys.exit(log.stdout[-3000:] + log.stderr[-1000:])
    plain = os.path.join(work, "kernels")
    subprocess.run([os.environ.get("CC", "cc"), "-O3", "-march=x86-64-v2", "-o", plain, os.path.join(here, "kernels.c")], check=True)
    return program, plain


def times(program):
    """The nanoseconds and the checksum by name."""
    lines = subprocess.run([program], capture_output=True, text=True, check=True).stdout.split("\n")
    return {l.split()[0]: (int(l.split()[1]), l.split()[2]) for l in lines if l}


work = tempfile.mkdtemp()
try:
    program, plain = built(work)
    ours, theirs = [], []
    for _ in range(rounds):
        ours.append(times(program))
        theirs.append(times(plain))
        for name in kernels:
            if ours[-1][name][1] != theirs[-1][name][1]:
                sys.exit("%s: not the same as C makes" % name)
    print("%-10s %9s %9s %6s" % ("kernel", "ms", "C, ms", "times"))
    for name in kernels:
        a = statistics.median(t[name][0] for t in ours) / 1e6
        b = statistics.median(t[name][0] for t in theirs) / 1e6
        print("%-10s %9.1f %9.1f %6.2f" % (name, a, b, a / b))
finally:
    shutil.rmtree(work)
