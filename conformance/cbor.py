"""The part of CBOR (RFC 8949) that the wire uses, in the deterministic encoding of its section 4.2.1.

Python's int, bytes, str, bool, list and dict stand for an unsigned number, a byte string, a text, false or true, an array
and a map. Maps have unsigned keys.
"""

UNSIGNED, BYTES, TEXT, ARRAY, MAP, SIMPLE = 0, 2, 3, 4, 5, 7
FALSE, TRUE = 20, 21


class Malformed(Exception):
    """The bytes aren't the one encoding of an item that the wire uses."""


def head(major, argument):
    """The shortest head: a major type, 0 to 7, and its argument, below 2^64."""
    if argument < 24:
        return bytes([major << 5 | argument])
    for low, size in (24, 1), (25, 2), (26, 4), (27, 8):
        if argument < 256**size:
            return bytes([major << 5 | low]) + argument.to_bytes(size, "big")
    raise ValueError("an argument has at most 64 bits")


def encode(value):
    """The one encoding of a value; the keys of a map rise."""
    if isinstance(value, bool):
        return head(SIMPLE, TRUE if value else FALSE)
    if isinstance(value, int):
        return head(UNSIGNED, value)
    if isinstance(value, bytes):
        return head(BYTES, len(value)) + value
    if isinstance(value, str):
        data = value.encode("utf-8")
        return head(TEXT, len(data)) + data
    if isinstance(value, list):
        return head(ARRAY, len(value)) + b"".join(map(encode, value))
    if isinstance(value, dict):
        return head(MAP, len(value)) + b"".join(encode(key) + encode(value[key]) for key in sorted(value))
    raise TypeError(f"the wire has no {type(value).__name__}")


class Reader:
    """Reads items from the front of some bytes, and raises Malformed at the first that isn't as it should be."""

    def __init__(self, data):
        self.data = data
        self.place = 0

    def take(self, count):
        end = self.place + count
        if end > len(self.data):
            raise Malformed("the bytes end inside an item")
        taken = self.data[self.place : end]
        self.place = end
        return taken

    def head(self):
        first = self.take(1)[0]
        major, low = first >> 5, first & 31
        if low < 24:
            return major, low
        if low > 27:
            raise Malformed("an indefinite length, or a head that isn't assigned")
        argument = int.from_bytes(self.take(1 << (low - 24)), "big")
        if head(major, argument)[0] != first:
            raise Malformed("a head that isn't the shortest")
        return major, argument

    def argument(self, wanted):
        """The argument of a head with the wanted major type."""
        major, argument = self.head()
        if major != wanted:
            raise Malformed("an item of another kind")
        return argument

    def bytes(self):
        return self.take(self.argument(BYTES))

    def plain(self):
        """An unsigned number, a byte string, a text, false or true."""
        major, argument = self.head()
        if major == UNSIGNED:
            return argument
        if major == BYTES:
            return self.take(argument)
        if major == TEXT:
            try:
                return self.take(argument).decode("utf-8")
            except UnicodeDecodeError as error:
                raise Malformed("a text that isn't UTF-8") from error
        # `f8 14` is no second encoding of false: it was refused as a head that isn't the shortest.
        if major == SIMPLE and argument in (FALSE, TRUE):
            return argument == TRUE
        raise Malformed("an item that no map of the wire has")

    def flat_map(self):
        pairs = {}
        before = -1
        for _ in range(self.argument(MAP)):
            key = self.argument(UNSIGNED)
            if key <= before:
                raise Malformed("keys that don't rise")
            before = key
            pairs[key] = self.plain()
        return pairs

    def pair(self):
        if self.argument(ARRAY) != 2:
            raise Malformed("an array of another length than two")

    def end(self):
        if self.place != len(self.data):
            raise Malformed("bytes behind the item")


def open_payload(payload):
    """The session and the byte string of a payload."""
    reader = Reader(payload)
    reader.pair()
    session, inside = reader.argument(UNSIGNED), reader.bytes()
    reader.end()
    return session, inside


def open_message(inside):
    """The number and the flat map of the byte string in a payload."""
    reader = Reader(inside)
    reader.pair()
    number, fields = reader.argument(UNSIGNED), reader.flat_map()
    reader.end()
    return number, fields


def payload_of(number, fields):
    """The payload of a command with this number, or of a reply with this code."""
    return encode([0, encode([number, fields])])


def frame(payload):
    return len(payload).to_bytes(4, "big") + payload
