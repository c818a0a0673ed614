"""A session that is written down: each command is answered by the model, and the line stands in the order of the calls."""
import hashlib
import textwrap

from cbor import encode, frame, head, open_message, open_payload, payload_of
from model import DERIVE, DESTROY, INITIALIZE, OK, ROTATE, SEAL, SIGN, UNSEAL, JournalFull, Model
from vectors import Group, Side, Vector, split_frames

ZERO_SEED = bytes(32)
ZERO_RANDOM = bytes(32)


def times(value, count=64):
    return bytes([value]) * count


# What a layer's derivation brings, but for its handle.
LAYER = {2: times(0x11), 3: times(0x21), 5: times(0x31), 6: 1}

# In the place of a handle: none is written, and the command uses the caller's default context.
BY_DEFAULT = None


def naming(handle):
    return {} if handle is BY_DEFAULT else {1: handle}


class Session:
    def __init__(self, name):
        self.name = name
        self.group = Group(name, hashlib.sha256(name.encode()).digest(), 1)
        self.random = None
        self.parts = []
        self.start()

    def start(self, **settings):
        """Begins again with other settings of the group: seed, first, entries."""
        for setting, value in settings.items():
            setattr(self.group, setting, value)
        self.model = Model(self.group.seed, self.group.first, self.group.entries)

    def heading(self, text):
        self.parts.append("\n" + textwrap.fill(text, 110, initial_indent="# ", subsequent_indent="# "))

    def text(self, title):
        group = self.group
        lines = [textwrap.fill(" ".join(title.split()), 110, initial_indent="# ", subsequent_indent="# ")]
        lines += [f"seed {group.seed.hex()}", f"first {group.first}"]
        lines += [f"entries {group.entries}"] if group.entries is not None else []
        return "\n".join(lines + self.parts) + "\n"

    def next_random(self):
        """Different for each line, or what the session fixed."""
        if self.random is not None:
            return self.random
        return hashlib.sha256(f"{self.name} {len(self.group.vectors)}".encode()).digest()

    def add(self, name, locality, random, asked, answered):
        assert name not in (vector.name for vector in self.group.vectors), name
        vector = Vector(name, locality, random, asked, answered)
        self.group.vectors.append(vector)
        self.parts.append(str(vector))

    def send(self, name, locality, payload, code=OK):
        """One frame of any payload, of which the model has to say this code. Gives the map of the reply."""
        random = self.next_random()
        reply = self.model.answer(locality, random, payload)
        self.add(name, locality, random, Side(frame(payload)), Side(frame(reply)))
        found, fields = open_message(open_payload(reply)[1])
        assert found == code, f"{self.name}: {name}: code {found}, and not {code}"
        return fields

    def stream(self, name, locality, data, ends=False, code=None):
        """Bytes at which the connection ends, by the client where `ends`. `code` is that of the last reply."""
        random = self.next_random()
        replies = b""
        for one in split_frames(data)[0]:
            try:
                reply = self.model.answer(locality, random, one[4:])
            except JournalFull:
                replies += frame(payload_of(26, {}))
                break
            replies += frame(reply)
        if code is not None:
            assert open_message(open_payload(split_frames(replies)[0][-1][4:])[1])[0] == code, name
        self.add(name, locality, random, Side(data, ends), Side(replies, True))

    def command(self, name, locality, number, fields, code=OK):
        return self.send(name, locality, payload_of(number, fields), code)

    def root(self, name="root", locality=0, code=OK, default=False):
        return self.command(name, locality, INITIALIZE, {2: True} if default else {}, code).get(1)

    def derive(self, name, handle, locality=0, code=OK, **other):
        """A derivation with the inputs of LAYER; `other` has what differs. Gives the child's and the parent's handles."""
        fields = LAYER | naming(handle) | other.pop("fields", {})
        if other.pop("retain", False):
            fields[8] = True
        for word, key in ("hidden", 7), ("may_derive", 9), ("target", 10), ("default", 12):
            if word in other:
                fields[key] = other.pop(word)
        assert not other, other
        reply = self.command(name, locality, DERIVE, fields, code)
        return reply.get(1), reply.get(2)

    def use(self, name, number, handle, locality, code, retain, label, fields):
        fields = fields | naming(handle)
        if retain:
            fields[3] = True
        if label:
            fields[2] = label
        reply = self.command(name, locality, number, fields, code)
        return reply.get(1), reply.get(2)

    def sign(self, name, handle, message=b"hi", locality=0, code=OK, retain=True, label=b""):
        return self.use(name, SIGN, handle, locality, code, retain, label, {4: True, 5: message})

    def seal(self, name, handle, plaintext=b"a secret", locality=0, code=OK, retain=True, label=b"", **masks):
        keys = {"localities": 4, "modes": 5}
        fields = {6: plaintext} | {keys[word]: mask for word, mask in masks.items()}
        return self.use(name, SEAL, handle, locality, code, retain, label, fields)

    def unseal(self, name, handle, box, locality=0, code=OK, retain=True, label=b""):
        return self.use(name, UNSEAL, handle, locality, code, retain, label, {5: box})

    def rotate(self, name, handle, locality=0, code=OK, default=False):
        return self.command(name, locality, ROTATE, naming(handle) | ({2: True} if default else {}), code).get(1)

    def destroy(self, name, handle, locality=0, code=OK, recursively=False):
        return self.command(name, locality, DESTROY, naming(handle) | ({2: True} if recursively else {}), code)

    def context(self, handle):
        """What the model knows of a live context."""
        return next(one for one in self.model.live if one.handle == handle)


def raw_payload(inside):
    """A payload around a byte string of any bytes."""
    return b"\x82\x00" + head(2, len(inside)) + inside


def raw_message(number, fields):
    """A payload whose message has this number and the bytes of a map, which need not be one."""
    return raw_payload(b"\x82" + encode(number) + fields)
