#!/usr/bin/env python3
"""Counts the compressions of SHA-512 and the instructions of a walk down the ratchet, by valgrind's callgrind.

Run it at the top of the repository after `rt run` in crates/dpe_ratchet. The walk from version 1,024 to 0 is the
difference of sealing no bytes at 0 and at 1,024.
"""
import re

from measuring import callgrind

COMPRESS = "sha2::block512::compress"
STEPS = 1024


def seal_at(version):
    """What sealing at this version takes: compressions, the instructions inside them, and all instructions."""
    words = ["seal", "00" * 32, "1024", str(version), "", "00" * 16]
    names = ["--compress-strings=no", "--compress-pos=no"]
    total, _, lines = callgrind(["crates/dpe_ratchet/out/dpe_ratchet", *words], names)
    calls = inside = 0
    function = called = None
    of_call = False
    for line in lines:
        if line.startswith("fn="):
            function = line[3:]
        elif line.startswith("cfn="):
            called = line[4:]
        elif line.startswith("calls="):
            calls += int(re.match(r"calls=(\d+)", line).group(1)) if called == COMPRESS else 0
            of_call = True
        elif cost := re.match(r"(?:0x)?[0-9a-f]+ (\d+)$", line):
            inside += int(cost.group(1)) if function == COMPRESS and not of_call else 0
            of_call = False
    return calls, inside, total


def main():
    low, low_inside, low_total = seal_at(0)
    top, _, top_total = seal_at(1024)
    one = low_inside / low
    walk = low_total - top_total
    print(f"1,024 steps: {low - top} compressions, {(low - top) / STEPS:.3f} a step")
    print(f"{walk} instructions, {walk / (6 * STEPS * one):.3f} of those of {6 * STEPS} compressions alone")


if __name__ == "__main__":
    main()
