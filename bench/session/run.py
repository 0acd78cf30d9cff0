#!/usr/bin/env python3
"""A session of a large picture: how long it takes with 1, 2 and 4 workers, how long a change takes until its view and preview are published, and what
runs that are overtaken waste.

Usage: bench/session/run.py [PROGRAM] [--size 6000x4000] [--rounds N]. It makes a mosaic and scripts itself (those of bench/runs), and prints medians."""
import json, os, resource, statistics, subprocess, sys, tempfile, time

here = os.path.dirname(os.path.abspath(__file__))
top = os.path.dirname(os.path.dirname(here))
sys.path.insert(0, os.path.join(os.path.dirname(here), "runs"))
from picture import make_mosaic, fourteen

words = sys.argv[1:]


def taken(name, default):
    if name not in words:
        return default
    at = words.index(name)
    value = words[at + 1]
    del words[at:at + 2]
    return value


size = tuple(int(n) for n in taken("--size", "6000x4000").split("x"))
rounds = int(taken("--rounds", "5"))
program = os.path.abspath(words[0]) if words else os.path.join(top, "crates", "devcore", "out", "devcore")

MOVES = 20
VIEW = {"factor": 1, "cx": 32768, "cy": 32768, "w": 720, "h": 480}
LARGE = {"stage_entries": 64, "stage_pixels": 33554432}


def session(work, script):
    """Wall seconds, processor seconds, peak megabytes and lines of one session."""
    with open(os.path.join(work, "script.json"), "w") as out:
        json.dump(script, out)
    room = tempfile.mkdtemp(dir=work)
    before = time.monotonic()
    pid = subprocess.Popen([program, "session", "../script.json", "../source.pgm"], cwd=room, stdout=subprocess.PIPE)
    said = pid.stdout.read().decode()
    _, status, used = os.wait4(pid.pid, 0)
    wall = time.monotonic() - before
    for name in os.listdir(room):
        os.remove(os.path.join(room, name))
    os.rmdir(room)
    if status != 0:
        sys.exit("the session ended with %d: %s" % (status, said))
    return wall, used.ru_utime + used.ru_stime, used.ru_maxrss / 1024, said.strip()


def show(name, work, script):
    runs = [session(work, script) for _ in range(rounds)]
    wall, cpu, peak = (statistics.median(r[i] for r in runs) for i in range(3))
    print("%-34s %8.2f s wall %8.2f s processor %7.0f MB  %s" % (name, wall, cpu, peak, runs[-1][3]))
    return wall, cpu


def move(gain):
    return {"do": "set", "module": "exposure", "instance": 3, "params": {"black": 100, "gain": gain}}


def settled(changes):
    return [step for change in changes for step in (change, {"do": "settle"})]


def script_of(workers, steps, settings=None):
    script = fourteen()
    script["settings"].update({"workers": workers, **(settings or {})})
    script["steps"] = steps
    return script


with tempfile.TemporaryDirectory() as work:
    make_mosaic(work, *size)
    # Ten changes that each begin a run of both pipes anew, or that wait for each other; at last an export and a thumbnail.
    changes = [move(3000 + 100 * i) for i in range(10)]
    shown = [{"do": "view", "factor": 9, "cx": 32768, "cy": 32768, "w": 720, "h": 480}]
    ends = [{"do": "settle"}, {"do": "export", "box": [2048, 2048]}, {"do": "thumbnail", "box": [256, 256]}]
    for workers in (1, 2, 4):
        show("hurried, %d workers" % workers, work, script_of(workers, shown + changes + ends))
    for workers in (1, 2, 4):
        show("settled, %d workers" % workers, work, script_of(workers, shown + settled(changes) + ends))
    alone = script_of(4, shown + changes[-1:] + ends)
    show("the last change alone, 4 workers", work, alone)
    # One move of a slider: the last module's, with a view of 720x480 and all stages kept.
    view = [{"do": "view", **VIEW}, {"do": "settle"}]
    still = show("no move", work, script_of(4, view, LARGE))
    moved = show("%d moves, settled" % MOVES, work, script_of(4, view + settled(move(3000 + 50 * i) for i in range(MOVES)), LARGE))
    print("a move: %.1f ms wall, %.1f ms processor" % tuple(1000 * (b - a) / MOVES for a, b in zip(still, moved)))
