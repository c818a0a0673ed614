#!/usr/bin/env python3
"""Compares a put and a get among 256 names of a vault with one among 1, in instructions.

Run it at the top of the repository after `rt run` in crates/dpe_vault. Both runs of a pair have room for the
same number of calls, and begin with the same puts: what is compared is the difference of many calls and none behind them.
"""
import tempfile

from measuring import callgrind

PROGRAM = "crates/dpe_vault/out/dpe_vault"
ENTRIES = "4096"
CALLS = 3072
PUT, GET = 0, 1
# the shortest box: its version, zeros for salt and masks, no data, zeros for the tag
BOX = bytes([1]) + bytes(84)


def item(locality, op, name, sealed=b""):
    """A call as the program reads it."""
    return bytes([locality, op, len(name)]) + name + len(sealed).to_bytes(2, "big") + sealed


def names(count):
    """So many names of 32 bytes that differ in their last bytes, in turn at the eight localities."""
    return [(at % 8, b"name of a box at a locality %04d" % at) for at in range(count)]


def tape(count, op, calls):
    """All names put once, and then so many calls of one kind over them, in an order that visits each."""
    kept = names(count)
    sealed = BOX if op == PUT else b""
    first = [item(locality, PUT, name, BOX) for locality, name in kept]
    more = [item(*kept[at * 89 % count][:1], op, kept[at * 89 % count][1], sealed) for at in range(calls)]
    return b"".join(first + more)


def instructions(count, op, calls, path):
    """The instructions of a run that puts so many names and then makes so many calls."""
    with open(path, "wb") as file:
        file.write(tape(count, op, calls))
    with open(path, "rb") as file:
        return callgrind([PROGRAM, ENTRIES], stdin=file)[0]


def main():
    with tempfile.TemporaryDirectory() as folder:
        for kind, op in (("put", PUT), ("get", GET)):
            one, many = (
                (instructions(count, op, CALLS, f"{folder}/items") - instructions(count, op, 0, f"{folder}/items")) / CALLS
                for count in (1, 256)
            )
            print(f"{kind}: {many:.0f} instructions among 256 names, {one:.0f} among 1, ratio {many / one:.3f}")


if __name__ == "__main__":
    main()
