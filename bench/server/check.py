#!/usr/bin/env python3
"""Checks the replies of a journal of InitializeContext, DeriveContext and Sign against Python's own HMAC. Words: SEED JOURNAL

It follows each handle to the CDI of its context, and computes each signature again. It ends with 1 at the first reply that
isn't the right one. Everything that it reads is trusted to have the form that docs/JOURNAL.md says.
"""
import hashlib
import hmac
import sys

ACCEPTED = 0
INITIALIZE, DERIVE, SIGN = 7, 8, 10


def mac(key, message):
    return hmac.digest(key, message, "sha512")


def signature(cdi, label, message):
    key = mac(mac(bytes(64), cdi), b"DPE-SIGN" + bytes([len(label)]) + label + b"\1")
    return mac(key, message)


def child_of(cdi, values):
    """The attestation CDI of a child, by the arguments of its DeriveContext."""
    config = values[3] if 3 in values else hashlib.sha512(values[4]).digest()
    hidden = values.get(7, bytes(64))
    measured = values[2] + config + values[5] + bytes([values[6]]) + hidden
    return mac(mac(hashlib.sha512(measured).digest(), cdi), b"CDI_Attest\1")[:32]


def item(data, at):
    """The item of CBOR at a place, and the place behind it."""
    major, low = data[at] >> 5, data[at] & 31
    size = 0 if low < 24 else 1 << (low - 24)
    argument = int.from_bytes(data[at + 1 : at + 1 + size], "big") if size else low
    at += 1 + size
    if major == 0:
        return argument, at
    if major == 2:
        return data[at : at + argument], at + argument
    if major == 7:
        return argument == 21, at
    parts = []
    for _ in range(argument if major == 4 else 2 * argument):
        part, at = item(data, at)
        parts.append(part)
    return (parts if major == 4 else dict(zip(parts[::2], parts[1::2]))), at


def message_of(payload):
    """The number and the map of a command or a reply."""
    (_, inner), _ = item(payload, 0)
    (number, values), _ = item(inner, 0)
    return number, values


def records_of(journal):
    """The command and the reply of each record."""
    at = 13
    while journal[at] == 1:
        at += 46
        payloads = []
        for _ in range(2):
            size = int.from_bytes(journal[at : at + 2], "big")
            payloads.append(journal[at + 2 : at + 2 + size])
            at += 2 + size
        yield payloads
    if journal[at] != 0xFF or len(journal) != at + 9:
        sys.exit("check: the journal has no right end")


def check(seed, journal):
    """How many signatures are right."""
    cdis, signed = {}, 0
    for place, (command, reply) in enumerate(records_of(journal)):
        number, values = message_of(command)
        code, made = message_of(reply)
        if code != ACCEPTED:
            sys.exit(f"check: entry {place} was refused with code {code}")
        if number == INITIALIZE:
            cdis[made[1]] = seed
            continue
        cdi = cdis.pop(values[1])
        if number == DERIVE:
            cdis[made[1]] = child_of(cdi, values)
            cdis[made[2]] = cdi
        else:
            cdis[made[1]] = cdi
            signed += 1
            if made[2] != signature(cdi, values.get(2, b""), values[5]):
                sys.exit(f"check: entry {place} has a wrong signature")
    return signed


def main():
    with open(sys.argv[1], "rb") as seed, open(sys.argv[2], "rb") as journal:
        print(f"right signatures {check(seed.read(), journal.read())}")


if __name__ == "__main__":
    main()
