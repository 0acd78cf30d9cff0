"""What the benches share: the built program, and the median time of a command of it."""
import os, statistics, subprocess, sys, time

top = os.path.dirname(os.path.dirname(os.path.abspath(__file__)))
rounds = int(sys.argv[sys.argv.index("--rounds") + 1]) if "--rounds" in sys.argv else 5


def built():
    """The program's path; it is proved and built first where it isn't yet."""
    program = os.path.join(top, "crates", "devcore", "out", "devcore")
    if not os.path.exists(program):
        subprocess.run([os.path.join(top, "bin", "devcore"), "--help"], stdout=subprocess.DEVNULL)
    return program


def median(command, folder, status):
    """The median seconds of the rounds, each of which has to end with this status."""
    taken = []
    for _ in range(rounds):
        before = time.monotonic()
        code = subprocess.run(command, cwd=folder, stdout=subprocess.DEVNULL).returncode
        taken.append(time.monotonic() - before)
        if code != status:
            sys.exit("status %d in place of %d" % (code, status))
    return statistics.median(taken)
