#!/usr/bin/env python3
"""Counts the compressions of SHA-512 and the instructions of checking a quote of 32 inputs, by valgrind's callgrind.

Run it at the top of the repository once `rt ci dpe_quote` has made the program. What the 32 inputs take is the difference of
checking that quote and one of no input.
"""
import hashlib
import hmac
import re
import tempfile

from measuring import callgrind

COMPRESS = "sha2::block512::compress"
DEPTH = 32
SEED, NONCE, FIELD = bytes(32), bytes(8), bytes(64)


def keyed(key, message):
    return hmac.new(key, message, hashlib.sha512).digest()


def derived(salt, secret, info):
    """The first 64 bytes that HKDF gives."""
    return keyed(keyed(salt, secret), info + b"\x01")


def quote(depth):
    """The quote of so many equal inputs, with the tag that proves it."""
    cdi = SEED
    for _ in range(depth):
        cdi = derived(hashlib.sha512(3 * FIELD + b"\x01" + FIELD).digest(), cdi, b"CDI_Attest")[:32]
    tag = keyed(derived(bytes(64), cdi, b"DPE-SIGN\x09DPE-QUOTE"), NONCE)
    string = b"\x58\x40" + FIELD
    head = bytes([0x80 + depth]) if depth < 24 else bytes([0x98, depth])
    return b"\x83\x48" + NONCE + head + (b"\x85" + 3 * string + b"\x01" + string) * depth + b"\x58\x40" + tag


def check(depth):
    """What checking such a quote takes: compressions, the instructions inside them, and all instructions."""
    with tempfile.TemporaryFile() as source:
        source.write(quote(depth))
        source.seek(0)
        command = ["crates/dpe_quote/out/dpe_quote", "verify", SEED.hex(), NONCE.hex()]
        total, said, lines = callgrind(command, ["--compress-strings=no", "--compress-pos=no"], source)
    assert said == f"accepted {depth}\n".encode(), said
    calls = inside = 0
    function = called = None
    of_call = False
    for line in lines:
        if line.startswith("fn="):
            function = line[3:]
        elif line.startswith("cfn="):
            called = line[4:]
        elif line.startswith("calls="):
            calls += int(re.match(r"calls=(\d+)", line).group(1)) if called == COMPRESS else 0
            of_call = True
        elif cost := re.match(r"(?:0x)?[0-9a-f]+ (\d+)$", line):
            inside += int(cost.group(1)) if function == COMPRESS and not of_call else 0
            of_call = False
    return calls, inside, total


def main():
    deep, inside, all_deep = check(DEPTH)
    flat, _, all_flat = check(0)
    print(f"{DEPTH} inputs: {deep - flat} compressions, {(deep - flat) / DEPTH:.3f} an input")
    taken, alone = all_deep - all_flat, (deep - flat) * inside / deep
    print(f"{taken} instructions, {taken / alone:.3f} of those of the compressions alone")


if __name__ == "__main__":
    main()
