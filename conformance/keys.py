"""What the DPE computes: CDIs, signatures and sealed boxes (docs/STATE_MACHINE.md, "Derivations").

SHA-512 and HMAC are those of Python's standard library; HKDF is RFC 5869's and ChaCha20 is RFC 8439's, written here.
"""
import hashlib
import hmac
import struct

NO_HIDDEN = bytes(64)
TAG_BYTES = 64
BOX_HEAD_BYTES = 21
LONGEST_PLAINTEXT = 2048


def sha512(data):
    return hashlib.sha512(data).digest()


def mac(key, message):
    return hmac.new(key, message, hashlib.sha512).digest()


def hkdf(salt, secret, info, length):
    extracted = mac(salt, secret)
    made = last = b""
    while len(made) < length:
        last = mac(extracted, last + info + bytes([len(made) // 64 + 1]))
        made += last
    return made[:length]


def rotated(word, bits):
    return (word << bits | word >> (32 - bits)) & 0xFFFFFFFF


def quarter_round(words, a, b, c, d):
    for left, right, other, bits in (a, b, d, 16), (c, d, b, 12), (a, b, d, 8), (c, d, b, 7):
        words[left] = (words[left] + words[right]) & 0xFFFFFFFF
        words[other] = rotated(words[other] ^ words[left], bits)


def chacha_block(key, counter, nonce):
    start = [*struct.unpack("<4I", b"expand 32-byte k"), *struct.unpack("<8I", key), counter, *struct.unpack("<3I", nonce)]
    words = start[:]
    for _ in range(10):
        for column in range(4):
            quarter_round(words, column, column + 4, column + 8, column + 12)
        for place in range(4):
            quarter_round(words, place, 4 + (place + 1) % 4, 8 + (place + 2) % 4, 12 + (place + 3) % 4)
    return struct.pack("<16I", *((one + other) & 0xFFFFFFFF for one, other in zip(words, start)))


def chacha(key, counter, nonce, text):
    stream = b"".join(chacha_block(key, counter + block, nonce) for block in range((len(text) + 63) // 64))
    return bytes(one ^ other for one, other in zip(text, stream))


def attest_cdi(parent, code, configuration, authority, mode, hidden):
    salt = sha512(code + configuration + authority + bytes([mode]) + hidden)
    return hkdf(salt, parent, b"CDI_Attest", 32)


def seal_cdi(parent, authority, mode, hidden):
    return hkdf(sha512(authority + bytes([mode]) + hidden), parent, b"CDI_Seal", 32)


def signature(cdi, label, message):
    return mac(hkdf(bytes(64), cdi, b"DPE-SIGN" + bytes([len(label)]) + label, 64), message)


def box_keys(cdi, label, salt, localities, modes):
    info = b"DPE-BOX" + bytes([localities, modes, len(label)]) + label
    made = hkdf(salt, cdi, info, 96)
    return made[:32], made[32:]


def seal(cdi, label, salt, localities, modes, plaintext):
    cipher_key, tag_key = box_keys(cdi, label, salt, localities, modes)
    ciphertext = chacha(cipher_key, 0, bytes(12), plaintext)
    body = b"\x01" + salt + bytes([localities, modes]) + len(plaintext).to_bytes(2, "big") + ciphertext
    return body + mac(tag_key, body)


class BoxMalformed(Exception):
    pass


class BoxRefused(Exception):
    pass


class PolicyRefused(Exception):
    pass


def unseal(cdi, label, box, locality, mode):
    """The plaintext of a box; the exceptions are tried in this order: form, tag, policy."""
    length = int.from_bytes(box[19:21], "big")
    well_formed = box[:1] == b"\x01" and len(box) == BOX_HEAD_BYTES + length + TAG_BYTES and length <= LONGEST_PLAINTEXT
    if not well_formed or box[18] > 15:
        raise BoxMalformed
    salt, localities, modes = box[1:17], box[17], box[18]
    cipher_key, tag_key = box_keys(cdi, label, salt, localities, modes)
    body, tag = box[:-TAG_BYTES], box[-TAG_BYTES:]
    if mac(tag_key, body) != tag:
        raise BoxRefused
    if not (localities >> locality & 1 and modes >> mode & 1):
        raise PolicyRefused
    return chacha(cipher_key, 0, bytes(12), body[BOX_HEAD_BYTES:])
