#!/usr/bin/env python3
"""What a session or a `develop` does where one call fails: each allocation in turn, and each start of a thread.

Usage: bench/failing_calls/run.py [PROGRAM]; wants gcc. Each run has to end by itself within a minute, with status 0 and the right files, or with
status 7 and `out of memory` and no file that differs from a right one. Prints how many ended which way, and ends with 1 where one was wrong."""
import os, subprocess, sys, tempfile
from pathlib import Path

here = Path(__file__).resolve().parent
top = here.parent.parent
program = str(Path(sys.argv[1]).resolve()) if len(sys.argv) > 1 else str(top / "crates/devcore/out/devcore")
SESSION = ["session", top / "examples/session/script.json", top / "examples/first/source.ppm"]
DEVELOP = ["develop", top / "examples/first/script.json", top / "examples/first/source.ppm", "out.ppm"]


def files(folder):
    """The files there; the lines of a manifest in order, since threads may publish in any order."""
    found = {p.name: p.read_bytes() for p in folder.iterdir()}
    if "manifest.txt" in found:
        found["manifest.txt"] = b"\n".join(sorted(found["manifest.txt"].split(b"\n")))
    return found


def tried(words, library, **env):
    """The status, what is said on both streams, the files, and whether the call that was to fail came."""
    with tempfile.TemporaryDirectory() as room, tempfile.NamedTemporaryFile() as failed:
        run = subprocess.run([program, *words], cwd=room, capture_output=True, timeout=60,
                             env={**os.environ, "LD_PRELOAD": str(library), "FAILED": failed.name, **env})
        return run.returncode, run.stdout + run.stderr, files(Path(room)), Path(failed.name).read_text() != ""


def is_right(status, said, found, right):
    if status == 0:
        return found == right
    if said == b"":
        # memory ran out in the last line alone: all files are there
        return status == 7 and found == right
    return status == 7 and said == b"out of memory\n" and all(right.get(name) == text for name, text in found.items())


def each_allocation(name, words, library):
    status, _, right, _ = tried(words, library)
    if status != 0:
        sys.exit("%s ends with %d where nothing fails" % (name, status))
    ok, refused, wrong, at, came = 0, 0, 0, 1, True
    while came:
        status, said, found, came = tried(words, library, FAIL_AT=str(at))
        if not is_right(status, said, found, right):
            wrong += 1
            print("%s, allocation %d: status %d, %s" % (name, at, status, said[:200]))
        ok += status == 0
        refused += status == 7
        at += 1
    print("%s: %d runs, %d out of memory, %d Ok, %d wrong" % (name, at - 1, refused, ok, wrong))
    return wrong


def no_threads(words, library):
    status, said, found, _ = tried(words, library, FAIL_THREADS="1")
    right = tried(words, library)[2]
    wrong = status != 0 or found != right
    print("no thread can be started: status %d, %s" % (status, "wrong" if wrong else "the same files"))
    return wrong


with tempfile.TemporaryDirectory() as work:
    library = Path(work) / "failing.so"
    subprocess.run(["gcc", "-O2", "-shared", "-fPIC", "-o", library, here / "failing.c", "-ldl"], check=True)
    wrong = each_allocation("develop", DEVELOP, library)
    wrong += each_allocation("session", SESSION, library)
    wrong += no_threads(SESSION, library)
sys.exit(1 if wrong else 0)
