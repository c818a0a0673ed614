#!/usr/bin/env python3
"""Makes a new server's root, derives a child of it by default, and signs, seals and unseals with that (docs/PROTOCOL.md)."""
import argparse
import socket

SUCCESS, NO_SUCH_HANDLE, NORMAL_MODE, LONGEST_PAYLOAD, PATIENCE_SECONDS, HANDLE = 0, 17, 1, 4096, 60, range(16, 17)
# Each command's number, its arguments in the order of their keys, and the parts of its reply with their lengths.
COMMANDS = {
    "InitializeContext": (7, "simulation use_default", dict(handle=HANDLE)),
    "DeriveContext": (8, "handle code config descriptor authority mode hidden retain", dict(child=HANDLE, parent=HANDLE)),
    "Sign": (10, "handle label retain symmetric message", dict(handle=HANDLE, signature=range(64, 65))),
    "Seal": (11, "handle label retain localities modes plaintext", dict(handle=HANDLE, box=range(85, 2134))),
    "Unseal": (12, "handle label retain asymmetric box", dict(handle=HANDLE, plaintext=range(0, 2049))),
}
HINTS = {5: " (the root was made before)", 27: " (this isn't the socket of locality 0)"}


def require(holds, complaint):
    if not holds:
        raise SystemExit(f"client.py: {complaint}")


def head(major, argument):
    size = (argument > 23) + (argument > 255)  # a payload is too short for arguments of more than 2 bytes
    return bytes([major << 5 | (23 + size if size else argument)]) + argument.to_bytes(2, "big")[2 - size:]


def encode(value):
    if isinstance(value, bytes):
        return head(2, len(value)) + value
    return (b"\xf5" if value else b"\xf4") if isinstance(value, bool) else head(0, value)


def message(number, fields):
    pairs = b"".join(encode(key) + encode(fields[key]) for key in sorted(fields))
    return b"\x82\x00" + encode(b"\x82" + encode(number) + head(5, len(fields)) + pairs)


def split_head(data):
    low = int.from_bytes(data[:1], "big") & 31
    size = {24: 1, 25: 2}.get(low, 0)
    return int.from_bytes(data[1:1 + size], "big") if size else low, data[1 + size:]


def parse_reply(payload, parts):
    """Reads any bytes as if they were a reply, and then asks whether that reply is these bytes."""
    _, inside = split_head(payload[2:])
    code, rest = split_head(inside[1:])
    pairs, rest = split_head(rest)
    came = {}
    for part in list(parts)[:pairs]:
        length, rest = split_head(rest[1:])
        came[part], rest = rest[:length], rest[length:]
    fits = len(came) == (0 if code else len(parts)) and all(len(came[part]) in parts[part] for part in came)
    require(fits and message(code, dict(enumerate(came.values(), 1))) == payload, "this isn't a reply to the command")
    return code, came


def exchange(stream, payload):
    stream.write(len(payload).to_bytes(4, "big") + payload)
    stream.flush()
    size = stream.read(4)
    reply = stream.read(min(int.from_bytes(size, "big"), LONGEST_PAYLOAD))
    require(size == len(reply).to_bytes(4, "big"), "the connection ended before a whole reply, or the reply is too long")
    return reply


def ask(stream, name, expected=SUCCESS, **arguments):
    number, keys, parts = COMMANDS[name]
    fields = {1 + keys.split().index(word): value for word, value in arguments.items()}
    code, came = parse_reply(exchange(stream, message(number, fields)), parts)
    print(f"{name:18}code {code}", *(f" {part} {data[:12].hex()}{'..' * (len(data) > 12)}" for part, data in came.items()))
    require(code == expected, f"{name}: code {code}, and not {expected}{HINTS.get(code, '')}")
    return came


def boot(stream):
    ask(stream, "InitializeContext", use_default=True)
    inputs = {"code": b"\x11" * 64, "config": b"\x21" * 64, "authority": b"\x31" * 64}
    child = ask(stream, "DeriveContext", mode=NORMAL_MODE, retain=True, **inputs)["child"]  # without a handle: of the root
    signed = ask(stream, "Sign", handle=child, retain=True, symmetric=True, message=b"a message")
    sealed = ask(stream, "Seal", handle=signed["handle"], retain=True, plaintext=b"a secret")
    opened = ask(stream, "Unseal", handle=sealed["handle"], retain=True, box=sealed["box"])
    require(opened["plaintext"] == b"a secret", "the unsealed plaintext isn't what was sealed")
    print("The unsealed plaintext is what was sealed. A spent handle must be refused:")
    ask(stream, "Sign", NO_SUCH_HANDLE, handle=child, symmetric=True, message=b"a message")


if __name__ == "__main__":
    parser = argparse.ArgumentParser(description=__doc__)
    parser.add_argument("path", metavar="PATH", help="the Unix socket of locality 0")
    path = parser.parse_args().path
    try:
        with socket.socket(socket.AF_UNIX, socket.SOCK_STREAM) as link:
            link.settimeout(PATIENCE_SECONDS)
            link.connect(path)
            boot(link.makefile("rwb"))
    except OSError as error:
        raise SystemExit(f"client.py: {path}: {error}")
