#!/usr/bin/env python3
"""`devcore stepped` over more and more events, on a small picture: the time an event, which is to stay the same.

run.py [--rounds N]: medians of N (5) rounds. Three kinds of lists. In the first a worker is overtaken by each of at most
255 changes, and does all its modules anew. In the second it takes a job, does its first module, keeps the stage and gives
the job back, again and again. The third is read whole and refused at its second event. Outside the gate. Needs Python 3;
the program is built by bin/devcore.
"""
import json, os, sys, tempfile

sys.path.insert(0, os.path.join(os.path.dirname(os.path.abspath(__file__)), ".."))
from program import built, median

CHANGES = [15, 60, 255]
TAKEN = [1_000, 10_000, 60_000]
READ = [1_000, 10_000, 60_000]
INSTANCES = 61
FRONT = [["rawprepare", 0], ["temperature", 0], ["demosaic", 0]]


def script(changes):
    """An opening history of many exposures, and changes of the last one."""
    exposure = {"module": "exposure", "params": {"black": 0, "gain": 4096}}
    items = [dict(exposure, instance=i) for i in range(INSTANCES)]
    history = {"items": items, "end": INSTANCES, "order": FRONT + [["exposure", i] for i in range(INSTANCES)]}
    steps = [dict(exposure, do="set", instance=INSTANCES - 1, params={"black": 0, "gain": 4096 + i}) for i in range(changes)]
    return {"history": history, "steps": steps}


def replay(changes):
    """A worker that is overtaken by each change, makes its frame anew, and publishes the last one."""
    run = [["load", 1]] + [["node", 1]] * (INSTANCES + 1) + [["finish", 1]]
    events = [["editor"], ["take", 1, "full"]] + run
    for _ in range(changes - 1):
        events += [["editor"], ["restart", 1]] + run
    return events + [["publish", 1], ["editor"]]


def retaken(count):
    """A worker that takes a job and gives it back."""
    cycle = [["take", 1, "full"], ["look", 1], ["load", 1], ["node", 1], ["keep", 1], ["give_back", 1]]
    return (cycle * (count // len(cycle) + 1))[:count]


def put(folder, name, value):
    with open(os.path.join(folder, name), "w") as f:
        json.dump(value, f)


def main():
    command = [built(), "stepped", "script.json", "source.ppm", "events.json"]
    with tempfile.TemporaryDirectory() as folder:
        with open(os.path.join(folder, "source.ppm"), "wb") as f:
            f.write(b"P6\n4 4\n255\n" + bytes(48))
        for changes in CHANGES:
            events = replay(changes)
            put(folder, "script.json", script(changes))
            put(folder, "events.json", events)
            took = median(command, folder, 0)
            print("%6d events replayed  %6.1f ms  %5.1f us an event" % (len(events), took * 1e3, took * 1e6 / len(events)))
        put(folder, "script.json", script(0))
        for count in TAKEN:
            put(folder, "events.json", retaken(count))
            took = median(command, folder, 0)
            print("%6d events retaken   %6.1f ms  %5.1f us an event" % (count, took * 1e3, took * 1e6 / count))
        for count in READ:
            put(folder, "events.json", [["editor"], ["publish", 1]] + [["editor"]] * (count - 2))
            took = median(command, folder, 4)
            print("%6d events read      %6.1f ms  %5.1f us an event" % (count, took * 1e3, took * 1e6 / count))


if __name__ == "__main__":
    main()
