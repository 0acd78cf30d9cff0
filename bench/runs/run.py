#!/usr/bin/env python3
"""How long a view of a large picture takes, by its size: a run over regions, from plan to window, and the last module with the
window alone.

Usage: bench/runs/run.py [SCRIPT SOURCE] [--rounds N]; wants rt. Without names it makes a mosaic of 24 megapixels and a script with
fourteen active module instances, two of them blended by masks. It proves and builds the program `main.rt.txt` in a temporary
folder, and leaves nothing behind. Prints medians of milliseconds, and of milliseconds a megapixel."""
import json, os, shutil, statistics, subprocess, sys, tempfile
from picture import fourteen, make_mosaic

here = os.path.dirname(os.path.abspath(__file__))
top = os.path.dirname(os.path.dirname(here))
words = sys.argv[1:]
rounds = 5
if "--rounds" in words:
    at = words.index("--rounds")
    rounds = int(words[at + 1])
    del words[at:at + 2]
libraries = {l.split(":")[0]: l for l in open(os.path.join(top, "crates.txt")) if ":" in l and not l.startswith("#")}


def needed(name):
    """The crate and those that it stands on, lowest first."""
    found = []
    for below in libraries[name].split(":")[1].split():
        if below in libraries:
            found += [it for it in needed(below) if it not in found]
    return found + [name]


def built(work):
    crates = []
    for name in ["pipe_run", "pipe_sync", "edit_script", "stage_run"]:
        crates += [it for it in needed(name) if it not in crates]
    for name in crates:
        shutil.copytree(os.path.join(top, "crates", name), os.path.join(work, "crates", name),
                        ignore=lambda folder, names: {n for n in names if n in ("out", "must-fail")})
    open(os.path.join(work, "crates.txt"), "w").write("".join(libraries[it] for it in crates) + "run_times: " + " ".join(crates) + "\n")
    shutil.copy(os.path.join(top, "HANDLES"), work)
    folder = os.path.join(work, "crates", "run_times")
    os.makedirs(os.path.join(folder, "src"))
    shutil.copy(os.path.join(here, "main.rt.txt"), os.path.join(folder, "src", "main.rt"))
    os.makedirs(os.path.join(folder, "proofs", "main"))
    shutil.copy(os.path.join(here, "main.Invariants.antt.txt"), os.path.join(folder, "proofs", "main", "Invariants.antt"))
    open(os.path.join(folder, "stdin"), "w").close()
    log = subprocess.run([os.environ.get("RT", "rt"), "run"], cwd=folder, capture_output=True, text=True)
    program = os.path.join(folder, "out", "run_times")
    if not os.path.exists(program):
        sys.exit(log.stdout[-20000:] + log.stderr[-1000:])
    return program


def made(work):
    make_mosaic(work, 6000, 4000)
    json.dump(fourteen(), open(os.path.join(work, "script.json"), "w"))


work = tempfile.mkdtemp()
try:
    program = built(work)
    if words:
        shutil.copy(words[0], os.path.join(work, "script.json"))
        shutil.copy(words[1], os.path.join(work, "source.pgm"))
    else:
        made(work)
    times = {}
    for _ in range(rounds):
        lines = subprocess.run([program], cwd=work, capture_output=True, text=True, check=True).stdout.split("\n")
        for l in filter(None, lines):
            part, w, h, spent = l.split()
            times.setdefault((part, int(w), int(h)), []).append(int(spent))
    print("%-12s %-6s %9s %12s" % ("view", "part", "ms", "ms a MP"))
    for (part, w, h), spent in times.items():
        ms = statistics.median(spent) / 1e6
        print("%-12s %-6s %9.1f %12.1f" % ("%dx%d" % (w, h), part, ms, ms / (w * h / 1e6)))
finally:
    shutil.rmtree(work)
