#!/usr/bin/env python3
"""`devcore develop` of one script and source beside any other programs that make the same picture, as one table.

table.py SCRIPT SOURCE [--rounds N] [--cpus LIST] [NAME=COMMAND ..]: medians of N (5) rounds, in each of which every program runs once, so
that a load on the machine meets all alike, and none of them finds a file of the round before. A COMMAND is a line for the shell, in which {source} and {out} stand for the files; the first one is
what ratios are of. `same` says whether a program wrote devcore's bytes. With --cpus 0, say, all run on these processors alone. Outside the gate.
"""
import os, shlex, statistics, subprocess, sys, tempfile, time

sys.path.insert(0, os.path.dirname(os.path.dirname(os.path.abspath(__file__))))
import program


def taken(words, name, default):
    """The value behind a name among the words, which lose both."""
    if name not in words:
        return default
    at = words.index(name)
    value = words[at + 1]
    del words[at:at + 2]
    return value


def timed(command):
    """Wall milliseconds, processor milliseconds and peak megabytes of a command."""
    before = time.monotonic()
    child = subprocess.Popen(command, shell=True, stdout=subprocess.DEVNULL, stderr=subprocess.DEVNULL)
    _, status, used = os.wait4(child.pid, 0)
    if status != 0:
        sys.exit("%s ended with %d" % (command, os.waitstatus_to_exitcode(status)))
    return 1e3 * (time.monotonic() - before), 1e3 * (used.ru_utime + used.ru_stime), used.ru_maxrss / 1024


def main():
    words = sys.argv[1:]
    rounds = int(taken(words, "--rounds", "5"))
    cpus = taken(words, "--cpus", None)
    script, source, others = os.path.abspath(words[0]), os.path.abspath(words[1]), [word.split("=", 1) for word in words[2:]]
    with tempfile.TemporaryDirectory() as folder:
        ours = "%s develop %s {source} {out}" % (shlex.quote(program.built()), shlex.quote(script))
        jobs = [("devcore", ours)] + [(name, command) for name, command in others]
        outs = {name: os.path.join(folder, name + ".ppm") for name, _ in jobs}
        before = "taskset -c %s " % cpus if cpus else ""
        runs = {name: [] for name, _ in jobs}
        for _ in range(rounds):
            for name, command in jobs:
                if os.path.exists(outs[name]):
                    os.remove(outs[name])
                line = "exec env " + before + command.format(source=shlex.quote(source), out=shlex.quote(outs[name]))
                runs[name].append(timed(line))
        medians = {name: [statistics.median(run[k] for run in runs[name]) for k in range(3)] for name, _ in jobs}
        against = medians[others[0][0] if others else "devcore"]
        wanted = open(outs["devcore"], "rb").read()
        print("load %.1f, processors %s" % (os.getloadavg()[0], cpus or "all"))
        print("%-14s %9s %9s %9s %9s %9s  %s" % ("", "wall ms", "ratio", "cpu ms", "ratio", "peak MB", "same"))
        for name, _ in jobs:
            wall, cpu, peak = medians[name]
            same = os.path.exists(outs[name]) and open(outs[name], "rb").read() == wanted
            print("%-14s %9.0f %9.2f %9.0f %9.2f %9.0f  %s"
                  % (name, wall, wall / against[0], cpu, cpu / against[1], peak, "yes" if same else "no"))


main()
