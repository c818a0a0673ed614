#!/usr/bin/env python3
"""Acquisitions a second of several programs that share one turn, run by turns. Words: ROUNDS CALLS REPEATS NAME=COMMAND..

Each command is run with the words THREADS COUNT ROUNDS behind it, at 1, 2, 4, 8 and 16 threads, REPEATS times. The best
run of each counts, since the other processes of the machine only slow a run down.
"""
import subprocess
import sys
import time

rounds, calls, repeats = (int(word) for word in sys.argv[1:4])
programs = [word.split("=", 1) for word in sys.argv[4:]]
print("| threads | " + " | ".join(name for name, _ in programs) + " |")
print("|---|" + "---|" * len(programs))
for threads in (1, 2, 4, 8, 16):
    best = [None] * len(programs)
    for _ in range(repeats):
        for at, (_, command) in enumerate(programs):
            words = command.split() + [str(threads), str(calls // threads), str(rounds)]
            start = time.monotonic()
            subprocess.run(words, check=True, stdout=subprocess.DEVNULL)
            taken = time.monotonic() - start
            if best[at] is None or taken < best[at]:
                best[at] = taken
    print(f"| {threads} | " + " | ".join(f"{calls / taken:,.0f}" for taken in best) + " |", flush=True)
