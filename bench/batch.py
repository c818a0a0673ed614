#!/usr/bin/env python3
"""Measures the batch program over tapes of one command, beside the same keyed operations by plain code over the kit's functions.

Run it at the top of the repository after `rt run` in crates/dpe_batch and crates/keys_bench. Words behind the script's name
are the tapes to measure: derive, sign, seal, long. Instructions are those of 850 items more, by callgrind; times are the least
of some runs over a whole tape.
"""
import struct
import subprocess
import sys
import tempfile

from measuring import callgrind, least

BATCH = ["crates/dpe_batch/out/dpe_batch", "run", "0" * 64, "1"]
STRAIGHT = "crates/keys_bench/out/keys_bench"
ITEMS = 65_536
# A first item, and groups of 17, of which 16 derive in a tape of derivations.
FEW, MANY = 1 + 10 * 17, 1 + 60 * 17
ROUNDS = 7

INITIALIZE, DERIVE, SIGN, SEAL, DESTROY = 7, 8, 10, 11, 15
DEEPEST = 16


def head(major, number):
    """The beginning of an item of deterministic CBOR."""
    if number < 24:
        return bytes([major << 5 | number])
    if number < 256:
        return bytes([major << 5 | 24, number])
    return bytes([major << 5 | 25]) + struct.pack(">H", number)


def encoded(value):
    """A number, a boolean or a byte string."""
    if isinstance(value, bool):
        return b"\xf5" if value else b"\xf4"
    if isinstance(value, int):
        return head(0, value)
    return head(2, len(value)) + value


def item(command, arguments):
    """An item of a tape, from locality 0 and with random bytes of zeros."""
    pairs = b"".join(head(0, key) + encoded(value) for key, value in arguments)
    message = head(4, 2) + head(0, command) + head(5, len(arguments)) + pairs
    payload = head(4, 2) + head(0, 0) + encoded(message)
    return bytes(33) + struct.pack(">I", len(payload)) + payload


def handle(serial):
    return struct.pack(">Q", serial) + bytes(8)


def derivation(serial, retain):
    arguments = [(1, handle(serial)), (2, b"\x33" * 64), (3, b"\x44" * 64), (5, b"\x55" * 64), (6, 1), (7, b"\x66" * 64)]
    return item(DERIVE, arguments + [(8, True)] * retain)


def derivations():
    """A layer below the root, 15 in its place, and the end of the last one, again and again."""
    root, fresh = 1, 2
    while True:
        yield derivation(root, True)
        child, root, fresh = fresh, fresh + 1, fresh + 2
        for _ in range(DEEPEST - 1):
            yield derivation(child, False)
            child, fresh = fresh, fresh + 1
        yield item(DESTROY, [(1, handle(child))])


def repeated(command, key, size, further):
    """One command with so many bytes, each time by the handle that the last reply gave."""
    serial = 1
    while True:
        yield item(command, [(1, handle(serial)), (3, True)] + further + [(key, b"\x22" * size)])
        serial += 1


TAPES = {
    "derive": derivations,
    "sign": lambda: repeated(SIGN, 5, 32, [(4, True)]),
    "seal": lambda: repeated(SEAL, 6, 32, []),
    "long": lambda: repeated(SEAL, 6, 2_048, []),
}


def write_tape(kind, items, file):
    """Writes a root and then commands, and answers how many keyed operations they are."""
    file.write(item(INITIALIZE, []))
    commands = TAPES[kind]()
    for _ in range(items - 1):
        file.write(next(commands))
    file.flush()
    return (items - 1) // 17 * 16 if kind == "derive" else items - 1


def refused(replies):
    """How many replies have a code other than 0, and how many there are."""
    at, count, bad = 0, 0, 0
    while at < len(replies):
        (size,) = struct.unpack_from(">I", replies, at)
        payload = replies[at + 4 : at + 4 + size]
        width = {24: 1, 25: 2}.get(payload[2] & 31, 0)
        bad += payload[3 + width : 5 + width] != b"\x82\x00"
        at, count = at + 4 + size, count + 1
    return bad, count


def instructions(kind):
    """The instructions of an operation: in the batch, and by plain code."""
    spent, done = [], []
    for items in [FEW, MANY]:
        with tempfile.NamedTemporaryFile() as tape:
            done.append(write_tape(kind, items, tape))
            spent.append(callgrind(BATCH, stdin=open(tape.name, "rb"))[0])
    plain = [callgrind([STRAIGHT, "straight", kind, str(count)])[0] for count in [10, 110]]
    return (spent[1] - spent[0]) / (done[1] - done[0]), (plain[1] - plain[0]) / 100


def measure(kind):
    ours, plain = instructions(kind)
    print(f"{kind}: {ours:.0f} instructions beside {plain:.0f}, {ours / plain:.3f}", flush=True)
    with tempfile.NamedTemporaryFile() as tape:
        done = write_tape(kind, ITEMS, tape)
        replies = subprocess.run(BATCH, stdin=open(tape.name, "rb"), check=True, capture_output=True).stdout
        bad, count = refused(replies)
        if bad or count != ITEMS:
            sys.exit(f"{kind}: {bad} of {count} replies are refusals")
        runs = {"batch": (BATCH, tape.name), "straight": ([STRAIGHT, "straight", kind, str(done)],)}
        best = least(runs, ROUNDS)
    ratio = best["batch"] / best["straight"]
    print(f"  {done} of them in {best['batch']:.3f} s beside {best['straight']:.3f} s, {ratio:.3f}", flush=True)


def main():
    for kind in sys.argv[1:] or TAPES:
        measure(kind)


if __name__ == "__main__":
    main()
