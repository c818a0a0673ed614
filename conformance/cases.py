"""The cases of the vectors, one function a file. What the lines show stands in their headings."""
import keys
from cbor import frame, payload_of
from model import DERIVE, DESTROY, GET_PROFILE, INITIALIZE, ROTATE, SEAL, SIGN, UNSEAL
from session import BY_DEFAULT, LAYER, ZERO_RANDOM, ZERO_SEED, naming, raw_message, raw_payload, times

NEVER_MADE = times(0xEE, 16)
# A command of each kind that uses a context, with no handle.
WITHOUT_HANDLES = (
    ("derive", DERIVE, LAYER),
    ("sign", SIGN, {4: True, 5: b"hi"}),
    ("seal", SEAL, {6: b"hi"}),
    ("unseal", UNSEAL, {5: b""}),
    ("rotate", ROTATE, {}),
    ("destroy", DESTROY, {}),
)
KEY_NAMES = {2: "code", 3: "configuration", 4: "descriptor", 5: "authority", 6: "mode", 7: "hidden", 8: "retain"}


def without(fields, *gone):
    return {key: value for key, value in fields.items() if key not in gone}


def page(session):
    """The examples of docs/PROTOCOL.md, whose random bytes are zeros."""
    session.start(seed=ZERO_SEED)
    session.random = ZERO_RANDOM
    session.heading("One command of each kind, in the order of the page.")
    session.command("profile", 0, GET_PROFILE, {})
    root = session.root()
    child, root = session.derive("derive", root, retain=True)
    root, _ = session.sign("sign", root)
    root, box = session.seal("seal", root, b"a")
    root, _ = session.unseal("unseal", root, box)
    root = session.rotate("rotate", root)
    session.destroy("destroy", root, recursively=True)
    session.rotate("rotate-a-spent-handle", root, code=17)
    session.heading("What was derived from the root was destroyed with it.")
    session.rotate("rotate-the-destroyed-child", child, code=17)


def page_defaults(session):
    """The examples of docs/PROTOCOL.md with default contexts, whose random bytes are zeros."""
    session.start(seed=ZERO_SEED)
    session.random = ZERO_RANDOM
    session.heading("The root as the default context of locality 0, and a child as that of locality 3.")
    session.root("root-as-default", default=True)
    session.derive("a-second-default-at-0", BY_DEFAULT, code=29, retain=True, target=0, default=True)
    child, _ = session.derive("a-default-at-3", BY_DEFAULT, retain=True, target=3, default=True)
    session.heading("A handle is judged as ever, and the refusal leaves both defaults as they were.")
    session.rotate("the-child-elsewhere", child, code=18)
    session.destroy("destroy-the-default-at-3", BY_DEFAULT, locality=3)
    session.destroy("no-default-at-3", BY_DEFAULT, locality=3, code=28)
    session.rotate("no-default-any-more", BY_DEFAULT)
    session.rotate("no-default-at-0", BY_DEFAULT, code=28)


def boot(session):
    """A boot of six layers over four localities, that of examples/boot.script."""
    session.start(seed=ZERO_SEED)

    def layer(name, parent, step, **other):
        fields = {2: times(0x10 + step), 3: times(0x20 + step), 5: times(0x30 + step)}
        return session.derive(name, parent, fields=fields, **other)

    session.heading("Locality 0: the root, the first layer, and two layers for other localities.")
    bl1, _ = layer("first-layer", session.root(), 1)
    tee, bl1 = layer("layer-at-1", bl1, 2, target=1, retain=True)
    bl2, _ = layer("layer-at-2", bl1, 3, target=2)
    session.heading("Localities 1 to 3: each layer signs, seals and derives at its own.")
    tee, _ = session.sign("sign-at-1", tee, locality=1)
    fields = {2: times(0x14), 4: b"\xa0", 5: times(0x34)}
    described = without(LAYER, 3) | fields | {1: bl2, 8: True, 10: 3}
    made = session.command("kernel-with-a-descriptor", 2, DERIVE, described)
    kernel, bl2 = made[1], made[2]
    init, _ = layer("init-process", kernel, 5, locality=3)
    app, init = layer("application", init, 6, locality=3, retain=True)
    app, box = session.seal("seal-at-3", app, b"secret", locality=3, localities=8, modes=2)
    app, _ = session.unseal("unseal-at-3", app, box, locality=3)
    renewed = session.rotate("rotate-at-3", app, locality=3)
    session.heading("A spent handle, and all that was derived from a context that is destroyed.")
    session.rotate("rotate-the-spent-handle", app, locality=3, code=17)
    session.destroy("destroy-at-1", tee, locality=1)
    session.destroy("destroy-all-below-2", bl2, locality=2, recursively=True)
    session.rotate("rotate-the-destroyed", renewed, locality=3, code=17)


def deriving(session):
    """DeriveContext with each of its arguments. After each derivation the child signs, which shows its inputs."""
    root = session.root()

    def child(name, locality=0, **other):
        nonlocal root
        made, root = session.derive(name, root, retain=True, **other)
        session.sign(f"{name}-signs", made, locality=locality, retain=False)

    session.heading("Two children with the same inputs sign alike; a change of any input changes the signature.")
    child("plain")
    child("plain-again")
    for key in 2, 3, 5:
        child(f"another-{KEY_NAMES[key]}", fields={key: times(0x44)})
    for mode in 0, 2, 3:
        child(f"mode-{mode}", fields={6: mode})
    child("hidden", hidden=times(0x77))
    session.heading("A hidden input of 64 zeros is none, and a default may be written.")
    child("hidden-zeros", hidden=times(0))
    child("defaults-written", may_derive=True, fields={11: False})
    session.heading("A descriptor is hashed; an inline configuration that is its SHA-512 makes the same context.")
    for name, descriptor in ("empty", b""), ("short", b"\xa0"), ("300-bytes", times(0x55, 300)):
        fields = without(LAYER, 3) | {1: root, 4: descriptor, 8: True}
        made = session.command(f"descriptor-{name}", 0, DERIVE, fields)
        root = made[2]
        session.sign(f"descriptor-{name}-signs", made[1], retain=False)
    child("configuration-of-the-empty-descriptor", fields={3: keys.sha512(b"")})
    session.heading("A target locality is the child's: it is found there alone. No socket has to be there for that.")
    for target in 0, 1, 7:
        child(f"target-{target}", locality=target, target=target)
    session.heading("A child without may-derive; then the root isn't retained, and is gone.")
    child("may-not-derive", may_derive=False)
    last, _ = session.derive("parent-not-retained", root)
    session.rotate("the-parent-is-gone", root, code=17)
    session.rotate("the-child-lives", last)


def signing(session):
    """Sign: labels, messages, and what becomes of the context."""
    handle = session.root()
    session.heading("The same message under the same label has the same signature, also after a rotation.")
    handle, _ = session.sign("sign", handle)
    handle, _ = session.sign("sign-again", handle)
    handle = session.rotate("rotate", handle)
    handle, _ = session.sign("sign-after-rotation", handle)
    session.heading("A label, which may be written empty, and messages of every kind of length.")
    handle, _ = session.sign("label", handle, label=b"attestation")
    made = session.command("label-empty", 0, SIGN, {1: handle, 2: b"", 3: True, 4: True, 5: b"hi"})
    handle = made[1]
    handle, _ = session.sign("label-longest", handle, label=times(0x4C))
    for length in 0, 23, 24, 255, 256, 2048:
        handle, _ = session.sign(f"message-of-{length}", handle, message=times(0x6D, length))
    session.heading("Without retain the context is gone, and what was derived from it stays.")
    child, handle = session.derive("derive", handle, retain=True)
    session.sign("sign-not-retained", handle, retain=False)
    session.sign("the-context-is-gone", handle, code=17)
    made = session.command("child-signs-retain-written-false", 0, SIGN, {1: child, 3: False, 4: True, 5: b"hi"})
    assert 1 not in made


def sealing(session):
    """Seal and Unseal: labels, masks and lengths, and which contexts open a box."""
    root = session.root()
    session.heading("Lengths of a plaintext; a box has 85 bytes more.")
    for length in 0, 1, 64, 65, 171, 256, 2048:
        root, box = session.seal(f"seal-{length}", root, times(0x70, length))
        assert len(box) == 85 + length
        root, plaintext = session.unseal(f"unseal-{length}", root, box)
        assert plaintext == times(0x70, length)
    session.heading("A label, and masks of which every bit but the needed one is 0.")
    root, box = session.seal("seal-labelled", root, label=b"disk", localities=1, modes=1)
    root, _ = session.unseal("unseal-labelled", root, box, label=b"disk")
    session.heading("A box opens in each context with the same authorities, modes and hidden inputs; code and "
                    "configuration may differ. The target locality doesn't count.")
    old, root = session.derive("old-code", root, retain=True)
    new, root = session.derive("new-code", root, retain=True, target=2, fields={2: times(0x12), 3: times(0x22)})
    other, root = session.derive("other-authority", root, retain=True, fields={5: times(0x32)})
    old, box = session.seal("seal-by-the-old-code", old)
    new, _ = session.unseal("unseal-by-the-new-code", new, box, locality=2)
    session.unseal("unseal-by-another-authority", other, box, code=23)
    session.heading("Without retain: the context is gone after an accepted Seal, and after an accepted Unseal.")
    _, box = session.seal("seal-not-retained", new, locality=2, retain=False)
    session.unseal("the-sealing-context-is-gone", new, box, locality=2, code=17)
    session.unseal("unseal-not-retained", old, box, retain=False)
    session.unseal("the-unsealing-context-is-gone", old, box, code=17)


def boxes(session):
    """Unseal of boxes that are no answer of this DPE: made elsewhere from its seed, and damaged in each part."""
    handle = session.root()
    cdi = session.context(handle).seal
    salt = bytes(range(16))

    def unseal(name, box, code=0, **other):
        nonlocal handle
        renewed, _ = session.unseal(name, handle, box, code=code, **other)
        handle = renewed or handle

    def made(localities=255, modes=15, label=b"", plaintext=b"a secret"):
        return keys.seal(cdi, label, salt, localities, modes, plaintext)

    box = made()
    session.heading("A box with a known salt opens.")
    unseal("known-salt", box)
    unseal("known-salt-longest", made(plaintext=times(0x70, 2048)))
    session.heading("Code 22: no form of a box. Its version, its modes, its length, and bytes too few or too many.")
    unseal("no-bytes", b"", code=22)
    unseal("84-bytes", box[:84], code=22)
    unseal("version-0", b"\x00" + box[1:], code=22)
    unseal("version-2", b"\x02" + box[1:], code=22)
    unseal("modes-16", box[:18] + b"\x10" + box[19:], code=22)
    unseal("a-byte-less", box[:-1], code=22)
    unseal("a-byte-more", box + b"\x00", code=22)
    unseal("length-one-more", box[:20] + bytes([box[20] + 1]) + box[21:], code=22)
    too_long = b"\x01" + salt + b"\xff\x0f" + (2049).to_bytes(2, "big") + bytes(2049 + 64)
    unseal("2049-bytes-of-plaintext", too_long, code=22)
    unseal("3900-bytes", times(0x01, 3900), code=22)
    session.heading("Code 23: the form of a box, and another tag. A bit turned in each part that the tag covers, and in "
                    "the tag.")
    for name, place in ("salt", 1), ("localities", 17), ("modes", 18), ("ciphertext", 21), ("tag", 29), ("end", 92):
        unseal(f"bit-in-{name}", box[:place] + bytes([box[place] ^ 1]) + box[place + 1 :], code=23)
    unseal("another-label", box, code=23, label=b"disk")
    unseal("no-label", made(label=b"disk"), code=23)
    session.heading("Code 24: the tag is right, and a mask lacks the caller's locality or the context's mode. Such a box "
                    "may be sealed, and this context never opens it.")
    unseal("other-localities", made(localities=254), code=24)
    unseal("no-localities", made(localities=0), code=24)
    unseal("other-modes", made(modes=14), code=24)
    unseal("no-modes", made(modes=0), code=24)
    sealed_handle, box = session.seal("seal-for-nobody", handle, localities=0, modes=0)
    handle = sealed_handle
    unseal("unseal-for-nobody", box, code=24)
    session.heading("After all these refusals the handle is as good as before.")
    unseal("known-salt-again", made())


def contexts(session):
    """RotateContextHandle and DestroyContext: what lives and what is gone."""
    root = session.root()
    session.heading("A rotated handle is spent, the new one is good, and a handle stays good through refusals.")
    renewed = session.rotate("rotate", root)
    session.rotate("rotate-the-spent", root, code=17)
    session.rotate("at-another-locality", renewed, locality=1, code=18)
    root = session.rotate("rotate-default-written", renewed)
    session.heading("A destroyed context's child lives on; the destroyed handle is gone.")
    middle, root = session.derive("middle", root, retain=True)
    leaf, middle = session.derive("leaf", middle, retain=True, target=3)
    session.destroy("destroy-the-middle", middle)
    session.rotate("the-middle-is-gone", middle, code=17)
    leaf = session.rotate("the-leaf-lives", leaf, locality=3)
    session.heading("A recursive destroy reaches through contexts that are gone, and to every locality.")
    session.destroy("destroy-the-root", root, recursively=True)
    session.rotate("the-leaf-is-gone", leaf, locality=3, code=17)
    session.heading("The root is made once in the life of a DPE, also where it was destroyed.")
    session.root("root-again", code=5)


def encoding(session):
    """Code 2: payloads that are no command, each with one fault. None changes anything: at the end the root is made."""
    session.heading("The payload is no array of an unsigned number and a byte string.")
    for name, digits in {
        "no-bytes": "",
        "a-number": "00",
        "a-byte-string": "438207a0",
        "array-of-one": "8143" "8207a0",
        "array-of-three": "830043" "8207a0" "00",
        "array-of-three-with-two": "830043" "8207a0",
        "array-of-indefinite-length": "9f0043" "8207a0" "ff",
        "session-negative": "822043" "8207a0",
        "session-a-string": "824043" "8207a0",
        "session-in-two-bytes": "82180043" "8207a0",
        "session-not-assigned": "821c43" "8207a0",
        "inside-a-text": "820063" "8207a0",
        "inside-not-wrapped": "8200" "8207a0",
        "inside-of-indefinite-length": "82005f43" "8207a0" "ff",
        "inside-cut-short": "820044" "8207a0",
        "length-in-two-bytes": "8200580382" "07a0",
        "a-tag": "c1820043" "8207a0",
        "a-byte-behind": "820043" "8207a0" "00",
        "head-that-is-not-assigned": "9c0043" "8207a0",
    }.items():
        session.send(name, 0, bytes.fromhex(digits), 2)
    session.heading("The byte string inside is no array of an unsigned number and a flat map.")
    for name, digits in {
        "empty-inside": "",
        "number-alone": "07",
        "message-of-one": "8107",
        "message-of-three": "8307a000",
        "message-of-three-with-two": "8307a0",
        "number-negative": "8227a0",
        "number-a-string": "8241" "07" "a0",
        "number-in-two-bytes": "821807a0",
        "no-map": "820780",
        "map-of-indefinite-length": "8207bfff",
        "map-head-of-indefinite-length": "8207bf",
        "map-head-not-assigned": "8207bc",
        "map-cut-short": "8207a101",
        "map-too-short": "8207a2" "01f4",
        "byte-behind-the-message": "8207a000",
    }.items():
        session.send(name, 0, raw_payload(bytes.fromhex(digits)), 2)
    map_faults(session)
    session.heading("The number is none of 1 to 16.")
    for number in 0, 17, 24, 256, 2**32, 2**64 - 1:
        session.send(f"number-{number}", 0, raw_message(number, b"\xa0"), 2)
    session.heading("A payload of 4,096 bytes is read; a longer one ends the connection.")
    session.send("longest-payload", 0, times(0x00, 4096), 2)
    session.heading("All this has changed nothing.")
    session.root()


def map_faults(session):
    session.heading("Keys and values of a map that the wire doesn't have.")
    for name, digits in {
        "key-negative": "a1" "20f4",
        "key-a-string": "a1" "4101f4",
        "key-a-text": "a1" "6161f4",
        "key-in-two-bytes": "a1" "1801f4",
        "keys-that-fall": "a2" "02f4" "01f4",
        "key-twice": "a2" "01f4" "01f4",
        "value-negative": "a1" "0120",
        "value-an-array": "a1" "0180",
        "value-a-map": "a1" "01a0",
        "value-a-tag": "a1" "01c101",
        "value-null": "a1" "01f6",
        "value-undefined": "a1" "01f7",
        "value-simple-0": "a1" "01e0",
        "value-false-in-two-bytes": "a1" "01f814",
        "value-simple-32": "a1" "01f820",
        "value-half-float": "a1" "01f93c00",
        "value-float": "a1" "01fa3f800000",
        "value-break": "a1" "01ff",
        "value-number-not-assigned": "a1" "011d",
        "value-string-not-assigned": "a1" "015e",
        "value-text-of-indefinite-length": "a1" "017f",
        "value-number-not-shortest": "a1" "01190001",
        "value-string-not-shortest": "a1" "01580100",
        "value-string-of-indefinite-length": "a1" "015f4100ff",
        "value-string-cut-short": "a1" "014200",
        "value-string-of-2-64-bytes": "a1" "015bffffffffffffffff",
        "text-with-a-lone-byte": "a1" "0161ff",
        "text-with-a-long-form": "a1" "0162c080",
        "text-with-a-surrogate": "a1" "0163eda080",
        "text-above-unicode": "a1" "0164f4908080",
        "text-cut-short": "a1" "0161c3",
    }.items():
        session.send(name, 0, raw_message(INITIALIZE, bytes.fromhex(digits)), 2)


def outside(session):
    """Code 16: what this profile doesn't have, and the tests that come before and behind it."""
    session.heading("A session other than 0, whatever it holds; session 0 around the same bytes is code 2.")
    session.send("session-1", 0, b"\x82\x01\x43\x82\x07\xa0", 16)
    session.send("session-1-around-nothing", 0, b"\x82\x01\x40", 16)
    session.send("session-0-around-nothing", 0, b"\x82\x00\x40", 2)
    session.send("session-2-64-less-1", 0, b"\x82\x1b" + times(0xFF, 8) + b"\x40", 16)
    session.heading("Commands that are known, with whatever map.")
    for number in 2, 3, 4, 5, 6, 9, 13, 16:
        session.command(f"command-{number}", 0, number, {}, 16)
    session.command("command-9-with-any-map", 0, 9, {1: "text", 99: True}, 16)
    session.heading("Arguments that ask for more. This comes before code 3: some of these maps have unknown keys, or lack "
                    "required ones.")
    session.command("simulation", 0, INITIALIZE, {1: True}, 16)
    session.command("create-certificate", 0, DERIVE, {11: True}, 16)
    session.command("sign-not-symmetric", 0, SIGN, {1: NEVER_MADE, 4: False, 5: b"hi"}, 16)
    session.command("sign-without-key-4", 0, SIGN, {1: NEVER_MADE, 5: b"hi"}, 16)
    session.command("sign-without-anything", 0, SIGN, {}, 16)
    session.command("unseal-asymmetric", 0, UNSEAL, {4: True, 99: 0}, 16)
    session.heading("And where nothing else of the command is wrong but its handle.")
    session.command("create-certificate-else-right", 0, DERIVE, LAYER | {1: NEVER_MADE, 11: True}, 16)
    session.command("unseal-asymmetric-else-right", 0, UNSEAL, {1: NEVER_MADE, 4: True, 5: b""}, 16)
    session.heading("A value of such a key that is no boolean is code 3.")
    for name, number, fields in (
        ("simulation-a-number", INITIALIZE, {1: 1}),
        ("create-certificate-a-number", DERIVE, LAYER | {1: NEVER_MADE, 11: 1}),
        ("is-symmetric-a-number", SIGN, {1: NEVER_MADE, 4: 1, 5: b"hi"}),
        ("is-symmetric-zero", SIGN, {1: NEVER_MADE, 4: 0, 5: b"hi"}),
        ("is-symmetric-no-bytes", SIGN, {1: NEVER_MADE, 4: b"", 5: b"hi"}),
        ("is-asymmetric-a-text", UNSEAL, {1: NEVER_MADE, 4: "no", 5: b""}),
    ):
        session.command(name, 0, number, fields, 3)
    session.heading("Where they are written false they ask for nothing: the commands are executed.")
    root = session.command("defaults-written", 0, INITIALIZE, {1: False, 2: False})[1]
    root = session.command("rotate-default-written", 0, ROTATE, {1: root, 2: False})[1]
    root, box = session.seal("seal", root)
    session.command("unseal-default-written", 0, UNSEAL, {1: root, 2: b"", 3: True, 4: False, 5: box})


def wrong_values(good):
    """Other values than those that each of some good arguments may have, by name."""
    for key, value in good.items():
        if isinstance(value, bool):
            yield key, "a-number", 1
        elif isinstance(value, int):
            yield key, "a-boolean", True
            yield key, "a-string", bytes([value])
        else:
            yield key, "a-text", "x" * len(value)
            yield key, "a-number", 7


def arguments(session):
    """Code 3: arguments that are absent, unknown, of another kind or out of range."""
    handle = session.root()
    commands = {
        "initialize": (INITIALIZE, {1: False, 2: False}, ()),
        "derive": (DERIVE, LAYER | {1: handle, 7: times(0), 8: False, 9: True, 10: 0, 12: False}, (2, 3, 5, 6)),
        "sign": (SIGN, {1: handle, 2: b"", 3: False, 4: True, 5: b"hi"}, (5,)),
        "seal": (SEAL, {1: handle, 2: b"", 3: False, 4: 255, 5: 15, 6: b"hi"}, (6,)),
        "unseal": (UNSEAL, {1: handle, 2: b"", 3: False, 4: False, 5: b""}, (5,)),
        "rotate": (ROTATE, {1: handle, 2: False}, ()),
        "destroy": (DESTROY, {1: handle, 2: False}, ()),
    }
    session.heading("A key that the command doesn't have.")
    session.command("profile-key-1", 0, GET_PROFILE, {1: False}, 3)
    for name, (number, fields, _) in commands.items():
        session.command(f"{name}-key-99", 0, number, fields | {99: 0}, 3)
    session.command("rotate-key-0", 0, ROTATE, {0: 0, 1: handle}, 3)
    session.command("derive-key-13", 0, DERIVE, commands["derive"][1] | {13: False}, 3)
    for key in 23, 24, 255, 256, 65535, 65536, 2**32 - 1, 2**32, 2**64 - 1:
        session.command(f"rotate-key-{key}", 0, ROTATE, {1: handle, key: key}, 3)
    session.heading("Values that are encoded as they should be, and that no argument has.")
    session.command("text-of-every-length-of-utf-8", 0, INITIALIZE, {1: "a\u00e9\u20ac\U0001f600"}, 3)
    session.command("text-of-no-bytes", 0, INITIALIZE, {2: ""}, 3)
    session.command("string-of-256-bytes", 0, INITIALIZE, {1: times(0, 256)}, 3)
    session.heading("A required key that is absent. The handle isn't one: without it the default context is used.")
    for name, (number, fields, required) in commands.items():
        for key in required:
            session.command(f"{name}-without-key-{key}", 0, number, without(fields, key), 3)
    session.heading("Values of another kind.")
    for name, (number, fields, _) in commands.items():
        for key, kind, value in wrong_values(fields):
            session.command(f"{name}-key-{key}-{kind}", 0, number, fields | {key: value}, 3)
    session.heading("DeriveContext with both configurations.")
    derive = commands["derive"][1]
    session.command("derive-both-configurations", 0, DERIVE, derive | {4: b""}, 3)
    session.heading("Lengths and numbers just outside of what may be.")
    for name, key, value in (
        *((name, key, times(1, length)) for name in ("derive", "sign", "seal", "unseal", "rotate", "destroy")
          for key, length in ((1, 15), (1, 17), (1, 0))),
        *(("derive", key, times(1, length)) for key in (2, 3, 5, 7) for length in (0, 63, 65)),
        ("derive", 6, 4), ("derive", 10, 8), ("derive", 10, 2**32),
        ("sign", 2, times(1, 65)), ("sign", 5, times(1, 2049)),
        ("seal", 2, times(1, 65)), ("seal", 4, 256), ("seal", 5, 16), ("seal", 6, times(1, 2049)),
        ("unseal", 2, times(1, 65)), ("unseal", 5, times(1, 3901)),
    ):
        size = f"{len(value)}-bytes" if isinstance(value, bytes) else value
        number, fields, _ = commands[name]
        session.command(f"{name}-key-{key}-of-{size}", 0, number, fields | {key: value}, 3)
    described = without(derive, 3) | {4: times(1, 1025)}
    session.command("derive-key-4-of-1025-bytes", 0, DERIVE, described, 3)
    session.heading("All this has changed nothing: the handle is good.")
    session.rotate("rotate", handle)


def order(session):
    """Codes 27, 5, 17, 18 and 19, and which comes first where several apply."""
    session.heading("27 before 5: InitializeContext elsewhere than at locality 0, before a root was made and after.")
    session.root("before-the-root-at-1", locality=1, code=27)
    session.root("before-the-root-at-7", locality=7, code=27)
    root = session.root()
    session.root("second-root", code=5)
    session.root("second-root-at-1", locality=1, code=27)
    session.heading("17: handles that were never made, or differ from a live one in a single byte.")
    session.rotate("never-made", NEVER_MADE, code=17)
    session.rotate("another-serial", times(0, 7) + b"\x02" + root[8:], code=17)
    session.rotate("another-last-byte", root[:15] + bytes([root[15] ^ 1]), code=17)
    session.derive("derive-never-made", NEVER_MADE, code=17)
    session.sign("sign-never-made", NEVER_MADE, code=17)
    session.seal("seal-never-made", NEVER_MADE, code=17)
    session.unseal("unseal-never-made-before-22", NEVER_MADE, b"", code=17)
    session.destroy("destroy-never-made", NEVER_MADE, code=17)
    session.heading("18: a live handle at another locality, with each command. 18 comes before 19 and 22, and 17 before 18.")
    closed, root = session.derive("may-not-derive", root, retain=True, may_derive=False, target=4)
    session.derive("derive-elsewhere-before-19", closed, code=18)
    session.sign("sign-elsewhere", closed, code=18)
    session.seal("seal-elsewhere", closed, code=18)
    session.unseal("unseal-elsewhere-before-22", closed, b"", code=18)
    session.rotate("rotate-elsewhere", closed, code=18)
    session.destroy("destroy-elsewhere", closed, code=18, recursively=True)
    session.rotate("never-made-elsewhere", NEVER_MADE, locality=6, code=17)
    session.heading("19: a context that was made with may-derive false derives nothing, and does all else.")
    session.derive("derive-from-it", closed, locality=4, code=19)
    session.derive("derive-from-it-with-retain", closed, locality=4, code=19, retain=True)
    closed, _ = session.sign("it-signs", closed, locality=4)
    closed = session.rotate("it-rotates", closed, locality=4)
    session.derive("may-not-derive-still", closed, locality=4, code=19)
    session.heading("A refusal spends nothing: an empty box tells whether a handle is live at this locality, and changes "
                    "nothing.")
    session.unseal("live-here", closed, b"", locality=4, code=22)
    session.unseal("live-elsewhere", closed, b"", code=18)
    session.destroy("destroy-it", closed, locality=4)
    session.unseal("not-live", closed, b"", locality=4, code=17)


def defaults(session):
    """Default contexts: what a command without a handle uses, and which commands make, keep, move and end a default."""
    root = session.root(default=True)
    session.heading("Each command without a handle uses the default context of its locality, whose new handle is told as ever.")
    session.sign("sign", BY_DEFAULT)
    _, box = session.seal("seal", BY_DEFAULT)
    session.unseal("unseal", BY_DEFAULT, box)
    child, root = session.derive("derive", BY_DEFAULT, retain=True)
    session.heading("The default context has a handle, which is spent like any other; a use by it keeps the default too.")
    root, _ = session.sign("sign-by-its-handle", root)
    session.sign("sign-by-default", BY_DEFAULT)
    session.sign("its-handle-was-spent", root, code=17)
    session.heading("28: a locality has a default context only where one was made there, whatever else lives there.")
    away, root = session.derive("a-child-at-1", BY_DEFAULT, retain=True, target=1)
    for name, number, fields in WITHOUT_HANDLES:
        session.command(f"{name}-at-1", 1, number, fields, 28)
        session.command(f"{name}-at-7", 7, number, fields, 28)
    session.heading("A child as the default context of another locality, with its parent retained and without.")
    session.derive("a-default-at-2", BY_DEFAULT, retain=True, target=2, default=True)
    session.sign("it-signs", BY_DEFAULT, locality=2)
    session.derive("a-default-at-3-without-retain", BY_DEFAULT, locality=2, target=3, default=True)
    session.sign("no-default-at-2", BY_DEFAULT, locality=2, code=28)
    session.sign("it-signs-at-3", BY_DEFAULT, locality=3)
    session.heading("A child in its parent's place, as a boot does where each layer is the default one.")
    session.derive("a-child-in-its-place", BY_DEFAULT, locality=3, default=True)
    session.derive("a-grandchild-in-its-place", BY_DEFAULT, locality=3, default=True)
    _, box = session.seal("it-seals", BY_DEFAULT, locality=3)
    session.heading("A refusal leaves the default as it was.")
    session.unseal("no-box", BY_DEFAULT, b"", locality=3, code=22, retain=False)
    session.unseal("another-context", BY_DEFAULT, box, code=23, retain=False)
    session.unseal("it-unseals", BY_DEFAULT, box, locality=3)
    session.heading("RotateContextHandle decides anew: without to-be-default the default ends, and with it a context becomes one.")
    renewed = session.rotate("not-any-more", BY_DEFAULT, locality=3)
    session.rotate("no-default-at-3", BY_DEFAULT, locality=3, code=28)
    session.rotate("to-be-default", renewed, locality=3, default=True)
    session.rotate("to-be-default-again", BY_DEFAULT, locality=3, default=True)
    session.sign("it-signs-again", BY_DEFAULT, locality=3)
    session.rotate("at-1-to-be-default", away, locality=1, default=True)
    session.command("to-be-default-written-false", 1, ROTATE, {2: False})
    session.sign("no-default-at-1", BY_DEFAULT, locality=1, code=28)
    session.heading("What ends a context ends its default: a use without retain, a destroy, and a recursive one of an ancestor.")
    session.sign("sign-not-retained", BY_DEFAULT, locality=3, retain=False)
    session.sign("no-default-at-3-again", BY_DEFAULT, locality=3, code=28)
    session.derive("a-default-at-4", BY_DEFAULT, retain=True, target=4, default=True)
    session.destroy("destroy-by-default", BY_DEFAULT, locality=4)
    session.destroy("no-default-at-4", BY_DEFAULT, locality=4, code=28)
    session.derive("a-default-at-5", BY_DEFAULT, retain=True, target=5, default=True)
    session.derive("a-parent-that-ends", child, target=6)
    session.destroy("destroy-all-by-default", BY_DEFAULT, recursively=True)
    session.destroy("no-default-at-0", BY_DEFAULT, code=28)
    session.destroy("no-default-at-5", BY_DEFAULT, locality=5, code=28)


def default_order(session):
    """Codes 28 and 29, and which comes first where several apply."""
    session.heading("28 before any root, and where the root isn't a default context. An argument's fault comes before it.")
    session.rotate("before-the-root", BY_DEFAULT, code=28)
    root = session.root()
    session.rotate("the-root-is-no-default", BY_DEFAULT, code=28)
    session.unseal("no-default-before-22", BY_DEFAULT, b"", code=28)
    session.command("a-message-is-absent", 0, SIGN, {4: True}, 3)
    session.command("not-symmetric", 0, SIGN, {5: b"hi"}, 16)
    session.command("a-handle-of-no-bytes", 0, ROTATE, {1: b""}, 3)
    session.heading("29 of DeriveContext: the target locality has a default context, and it isn't the one that is used.")
    one, root = session.derive("a-default-at-1", root, retain=True, target=1, default=True)
    session.derive("a-second-at-1", root, code=29, target=1, default=True)
    session.derive("a-second-at-1-with-retain", root, code=29, retain=True, target=1, default=True)
    plain, root = session.derive("no-default-at-1", root, retain=True, target=1)
    session.derive("from-another-there", plain, locality=1, code=29, default=True)
    session.heading("Or it is the one that is used, and stays beside its child.")
    session.derive("beside-the-default", BY_DEFAULT, locality=1, code=29, retain=True, default=True)
    session.derive("beside-the-default-target-written", one, locality=1, code=29, retain=True, target=1, default=True)
    session.heading("29 of RotateContextHandle: another context of its locality is the default one.")
    session.rotate("a-second-by-rotation", plain, locality=1, code=29, default=True)
    session.heading("A default context at one locality is nothing to another one.")
    root = session.rotate("the-root-to-be-default", root, default=True)
    session.heading("17 and 18 come before 29, and so does 19.")
    session.derive("never-made", NEVER_MADE, code=17, target=1, default=True)
    session.rotate("rotate-never-made", NEVER_MADE, code=17, default=True)
    session.derive("elsewhere", plain, code=18, target=1, default=True)
    session.rotate("rotate-elsewhere", plain, code=18, default=True)
    session.derive("the-default-elsewhere", one, code=18, default=True)
    closed, root = session.derive("may-not-derive", root, retain=True, may_derive=False, target=2)
    session.derive("may-not-derive-at-1", closed, locality=2, code=19, target=1, default=True)
    session.heading("27 and 5 come first: a root that would be the default context is one like any other.")
    session.root("second-root-as-default", code=5, default=True)
    session.root("root-as-default-elsewhere", locality=1, code=27, default=True)
    session.heading("After all these refusals both default contexts are as they were.")
    session.sign("it-signs-at-1", BY_DEFAULT, locality=1)
    session.sign("it-signs-at-0", BY_DEFAULT)
    session.heading("Once the default context has ended its place is free.")
    session.sign("sign-not-retained", BY_DEFAULT, locality=1, retain=False)
    session.rotate("a-first-by-rotation", plain, locality=1, default=True)
    session.sign("the-new-default-signs", BY_DEFAULT, locality=1)


def depth(session):
    """Code 20: 32 derivations reach depth 32, and one more is refused; 19 comes before it, and it before 29."""
    handle = session.root()
    session.heading("Each derivation takes the handle of the one before.")
    for step in range(1, 32):
        handle, _ = session.derive(f"depth-{step}", handle)
    closed, handle = session.derive("depth-32-may-not-derive", handle, retain=True, may_derive=False)
    deepest, _ = session.derive("depth-32", handle)
    session.heading("At depth 32: 20, with retain and without, but 19 where the context may not derive at all.")
    session.derive("depth-33", deepest, code=20)
    session.derive("depth-33-with-retain", deepest, code=20, retain=True)
    session.derive("depth-33-may-not-derive", closed, code=19)
    session.heading("The deepest context does all else. As the default one it is used without a handle.")
    deepest, _ = session.sign("sign", deepest)
    deepest, box = session.seal("seal", deepest)
    deepest = session.rotate("rotate-to-be-default", deepest, default=True)
    session.unseal("unseal", BY_DEFAULT, box)
    session.derive("depth-33-before-29", BY_DEFAULT, code=20, retain=True, default=True)
    session.derive("depth-33-may-not-derive-before-29", closed, code=19, default=True)
    session.sign("sign-not-retained", BY_DEFAULT, retain=False)


def full_table(session):
    """Code 21: 1,024 contexts live. A derivation that keeps its parent is refused then, and all else goes on."""
    root = session.root(default=True)
    session.heading("1,023 derivations that keep the root, which every second one doesn't name: it is the default context.")
    short = without(LAYER, 3) | {4: b""}
    child = None
    for count in range(1, 1024):
        named = root if count % 2 else BY_DEFAULT
        made = session.command(f"context-{count + 1}", 0, DERIVE, short | naming(named) | {8: True})
        child, root = made[1], made[2]
    session.heading("1,024 contexts live. 21 comes before 29.")
    session.command("one-more", 0, DERIVE, short | {1: root, 8: True}, 21)
    session.command("one-more-by-default", 0, DERIVE, short | {8: True}, 21)
    session.command("one-more-before-29", 0, DERIVE, short | {8: True, 12: True}, 21)
    session.command("a-taken-default-without-retain", 0, DERIVE, short | {1: child, 12: True}, 29)
    renewed = session.rotate("rotate", child)
    replaced = session.command("derive-without-retain", 0, DERIVE, short | {1: renewed})[1]
    session.heading("A place that becomes free is taken.")
    session.destroy("destroy-one", replaced)
    made = session.command("one-more-now", 0, DERIVE, short | {1: root, 8: True})
    session.command("and-one-more", 0, DERIVE, short | {1: made[2], 8: True}, 21)
    session.destroy("destroy-all", made[2], recursively=True)
    session.rotate("all-are-gone", made[1], code=17)
    session.rotate("the-default-is-gone", BY_DEFAULT, code=28)


def serials(session):
    """Code 25: the last serial is 2^64 - 2, and a command that would need one more is refused."""
    session.start(first=2**64 - 3)
    root = session.root(default=True)
    session.heading("One serial is left: two handles are too many, one isn't. 25 comes before 22, and 17 and 18 before 25.")
    session.derive("derive-with-retain", root, code=25, retain=True)
    session.derive("derive-by-default-with-retain", BY_DEFAULT, code=25, retain=True)
    session.derive("a-taken-default-before-25", BY_DEFAULT, code=29, retain=True, default=True)
    session.sign("no-default-before-25", BY_DEFAULT, locality=1, code=28)
    last = session.rotate("rotate", root, default=True)
    session.heading("None is left: whatever would make a handle is refused, and the rest is executed.")
    session.rotate("rotate-again", last, code=25)
    session.rotate("rotate-a-spent-handle", root, code=17)
    session.rotate("rotate-elsewhere", last, locality=3, code=18)
    session.derive("derive", last, code=25)
    session.derive("derive-a-default-in-its-place", last, code=25, default=True)
    session.rotate("rotate-by-default", BY_DEFAULT, code=25)
    session.sign("sign-with-retain", last, code=25)
    session.seal("seal-with-retain", last, code=25)
    session.unseal("unseal-with-retain-before-22", last, b"", code=25)
    session.unseal("unseal-without-retain", last, b"", code=22, retain=False)
    session.command("profile", 0, GET_PROFILE, {})
    session.heading("The last context is still the default one.")
    session.sign("sign-without-retain", BY_DEFAULT, retain=False)


def longest(session):
    """The longest frame of each command, and of each reply."""
    root = session.root()
    label = times(0x4C)
    session.heading("DeriveContext with a descriptor of 1,024 bytes and each argument written.")
    fields = {1: root, 2: times(1), 4: times(4, 1024), 5: times(5), 6: 3, 7: times(7), 8: True, 9: False, 10: 7, 11: False}
    made = session.command("derive", 0, DERIVE, fields | {12: False})
    session.heading("And with a configuration.")
    fields = without(fields, 4) | {1: made[2], 3: times(3), 12: True}
    made = session.command("derive-with-a-configuration", 0, DERIVE, fields)
    session.heading("Sign, Seal and Unseal with a label of 64 bytes and 2,048 bytes of data, and each argument written.")
    made = session.command("sign", 0, SIGN, {1: made[2], 2: label, 3: True, 4: True, 5: times(5, 2048)})
    fields = {1: made[1], 2: label, 3: True, 4: 255, 5: 15, 6: times(6, 2048)}
    made = session.command("seal", 0, SEAL, fields)
    made = session.command("unseal", 0, UNSEAL, {1: made[1], 2: label, 3: True, 4: False, 5: made[2]})
    session.heading("The longest argument that is no code 3, which is no box; and a key that would make it longer.")
    fields = {1: made[1], 2: label, 3: True, 4: False, 5: times(1, 3900)}
    session.command("unseal-3900-bytes", 0, UNSEAL, fields, 22)
    session.command("unseal-3900-bytes-and-a-key", 0, UNSEAL, fields | {99: times(0, 80)}, 3)


def connections(session):
    """How connections end, and several frames at once. `+end` stands where a side ends its direction of the stream."""
    profile = b"\x00\x00\x00\x06\x82\x00\x43\x82\x01\xa0"
    session.heading("The client ends between two frames: what was answered is answered, then the server ends.")
    session.stream("nothing", 0, b"", ends=True)
    session.stream("one-frame", 0, profile, ends=True, code=0)
    session.stream("three-frames-at-once", 0, profile * 3, ends=True, code=0)
    session.stream("a-refused-frame-and-a-good-one", 0, b"\x00\x00\x00\x00" + profile, ends=True, code=0)
    session.heading("A payload of no bytes is a frame, and is answered with code 2.")
    session.send("empty-payload", 0, b"", 2)
    session.heading("The client ends inside a frame: nothing answers the rest.")
    session.stream("a-byte-of-a-head", 0, b"\x00", ends=True)
    session.stream("three-bytes-of-a-head", 0, profile[:3], ends=True)
    session.stream("a-head-alone", 0, profile[:4], ends=True)
    session.stream("a-frame-without-its-last-byte", 0, profile[:-1], ends=True)
    session.stream("one-frame-and-a-half", 0, profile + profile[:7], ends=True, code=0)
    session.heading("A head tells more than 4,096 bytes: the server ends, without waiting for them.")
    session.stream("4097-bytes", 0, b"\x00\x00\x10\x01")
    session.stream("2-32-less-1-bytes", 0, times(0xFF, 4))
    session.stream("one-frame-and-a-long-head", 0, profile + b"\x00\x00\x10\x01", code=0)
    session.stream("a-long-head-and-a-frame", 0, b"\x00\x00\x10\x01" + profile)
    session.heading("Handles belong to the DPE and not to a connection.")
    root = session.root()
    session.stream("the-connection-ends", 0, b"", ends=True)
    session.rotate("on-a-new-connection", root)


def full_history(session):
    """Code 26: the history has no place left. The reply is written, nothing is executed, and the connection ends."""
    session.start(entries=4)
    session.heading("Refused commands and GetProfile take a place like any other.")
    session.command("profile", 0, GET_PROFILE, {})
    session.send("no-command", 0, b"", 2)
    root = session.root()
    renewed = session.rotate("rotate", root)
    session.heading("Four places are taken. Whatever comes now, on whatever connection, is code 26.")
    rotation = frame(payload_of(ROTATE, {1: renewed}))
    session.stream("rotate-again", 0, rotation, code=26)
    session.stream("on-a-new-connection", 0, rotation, code=26)
    session.stream("two-at-once", 0, rotation * 2, code=26)
    session.stream("at-another-locality", 5, rotation, code=26)
    session.stream("no-command-either", 0, b"\x00\x00\x00\x00", code=26)
    session.stream("a-long-head-is-answered-by-nothing", 0, b"\x00\x00\x10\x01")


ALL = (
    page, page_defaults, boot, deriving, signing, sealing, boxes, contexts, encoding, outside, arguments, order, defaults,
    default_order, depth, full_table, serials, longest, connections, full_history,
)
