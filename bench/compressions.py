#!/usr/bin/env python3
"""Counts the SHA-512 compressions of one keyed operation, by valgrind's callgrind.

Run it at the top of the repository after `rt ci`, or after `rt run` in keys_bench. One operation is the difference of 110
and 10 of them, by a hundred.
"""
import re
import sys

from measuring import callgrind

COMPRESS = "sha2::block512::compress"
NAMES = ["--compress-strings=no", "--compress-pos=no"]
# The words of keys_bench, and what each does.
OPERATIONS = {
    "hmac": "HMAC of 32 bytes",
    "sign": "Sign of 32 bytes, with a kept Unsalted",
    "derive": "Derive, both CDIs",
    "seal": "Seal of 32 bytes",
    "unseal": "Unseal of 32 bytes",
}


def compressions(operation, times):
    """How often the compression is called in a run that does the operation so many times."""
    _, _, lines = callgrind(["crates/keys_bench/out/keys_bench", "ours", operation, str(times)], NAMES)
    calls, called = 0, None
    for line in lines:
        if line.startswith("cfn="):
            called = line[4:]
        elif called == COMPRESS and (found := re.match(r"calls=(\d+)", line)):
            calls += int(found[1])
    return calls


def main():
    for operation, what in OPERATIONS.items():
        each = (compressions(operation, 110) - compressions(operation, 10)) / 100
        print(f"{what}: {each:.2f} compressions")


if __name__ == "__main__":
    sys.exit(main())
