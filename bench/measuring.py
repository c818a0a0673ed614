"""What the scripts beside this one share: instruction counts by callgrind, and times as the least of many runs."""
import os
import re
import resource
import subprocess
import tempfile

# Callgrind counts each step of a `rep` instruction, of which the processor's own count has one. So the C library, which
# fills and copies rooms of kilobytes with it, is told to do without.
NO_REP = dict(os.environ, GLIBC_TUNABLES="glibc.cpu.hwcaps=-ERMS")


def callgrind(command, options=(), stdin=subprocess.DEVNULL):
    """The total of a run, what it prints, and the lines of its profile."""
    with tempfile.NamedTemporaryFile() as out:
        counting = ["valgrind", "--tool=callgrind", f"--callgrind-out-file={out.name}", *options]
        run = subprocess.run(counting + command, stdin=stdin, check=True, capture_output=True, env=NO_REP)
        lines = open(out.name).read().splitlines()
    return int(re.search(rb"Collected : (\d+)", run.stderr).group(1)), run.stdout, lines


def pinned():
    """Keeps a process on the last processor."""
    os.sched_setaffinity(0, {max(os.sched_getaffinity(0))})


def used():
    """The seconds that the processes waited for have used on a processor, for themselves and in the kernel."""
    usage = resource.getrusage(resource.RUSAGE_CHILDREN)
    return usage.ru_utime + usage.ru_stime


def seconds(command, tape=None):
    """The time that a run uses on a processor. What else the machine does stretches it only where it takes the caches."""
    stdin = open(tape, "rb") if tape else subprocess.DEVNULL
    before = used()
    subprocess.run(command, stdin=stdin, stdout=subprocess.DEVNULL, check=True, preexec_fn=pinned)
    return used() - before


def least(runs, rounds):
    """The least time of each command, in turns: so each has its share of quiet times."""
    best = {name: float("inf") for name in runs}
    for _ in range(rounds):
        for name, run in runs.items():
            best[name] = min(best[name], seconds(*run))
    return best
