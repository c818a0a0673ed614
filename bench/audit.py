#!/usr/bin/env python3
"""Measures the audit of a journal of 65,536 commands, nearly all of them Signs of 32 bytes, beside the batch program on the same commands.

Run it at the top of the repository after `rt run` in crates/dpe_batch and crates/dpe_replay. The journal is made here of
the tape and of the batch program's replies. Times are the least of some runs, by what they use of a processor.
"""
import os
import struct
import subprocess
import sys
import tempfile

from batch import BATCH, ITEMS, write_tape
from measuring import least

AUDIT = "crates/dpe_replay/out/dpe_replay"
ROUNDS = 7
# Before a tape's frame: the locality and the random bytes.
FRONT = 33


def frames(data, front):
    """The payloads of frames, each behind so many bytes."""
    at = 0
    while at < len(data):
        (size,) = struct.unpack_from(">I", data, at + front)
        yield data[at + front + 4 : at + front + 4 + size]
        at += front + 4 + size


def journal(tape, replies):
    """The journal of a caller 1 whose one connection sent the tape's commands, from locality 0 and with random bytes of zeros."""
    parts, count = [b"DPEJ\x01" + struct.pack(">Q", 1)], 0
    for command, reply in zip(frames(tape, FRONT), frames(replies, 0)):
        parts.append(b"\x01" + struct.pack(">III", 1, 0, count) + bytes(FRONT))
        parts += [struct.pack(">H", len(command)), command, struct.pack(">H", len(reply)), reply]
        count += 1
    return b"".join(parts) + b"\xff" + struct.pack(">Q", count)


def main():
    with tempfile.TemporaryDirectory() as folder:
        tape, seed, history = [os.path.join(folder, name) for name in ["tape", "seed", "journal"]]
        with open(tape, "wb") as file:
            write_tape("sign", ITEMS, file)
        replies = subprocess.run(BATCH, stdin=open(tape, "rb"), check=True, capture_output=True).stdout
        open(seed, "wb").write(bytes(32))
        open(history, "wb").write(journal(open(tape, "rb").read(), replies))
        check = [AUDIT, "check", seed, history]
        said = subprocess.run(check, capture_output=True, text=True)
        if said.returncode != 0 or said.stdout.splitlines()[:2] != [f"entries {ITEMS}", "refused 0"]:
            sys.exit(f"the audit ended with {said.returncode}: {said.stdout}{said.stderr}")
        best = least({"batch": (BATCH, tape), "audit": (check,)}, ROUNDS)
    print(f"{ITEMS} commands: audit {best['audit']:.3f} s beside {best['batch']:.3f} s, {best['audit'] / best['batch']:.3f}")


if __name__ == "__main__":
    main()
