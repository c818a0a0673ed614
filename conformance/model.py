"""A DPE of the profile dpe-symmetric-2, written from docs/PROTOCOL.md and docs/STATE_MACHINE.md and from nothing else.

It shares no code with the server. `conformance/known` tries it on values that were computed elsewhere.
"""
from dataclasses import dataclass, replace

import keys
from cbor import Malformed, open_message, open_payload, payload_of

PROFILE = {1: "dpe-symmetric-2", 2: 4096, 3: 1024, 4: 32}
MOST_CONTEXTS, GREATEST_DEPTH, LAST_SERIAL = 1024, 32, 2**64 - 1

GET_PROFILE, INITIALIZE, DERIVE, SIGN, SEAL, UNSEAL, ROTATE, DESTROY = 1, 7, 8, 10, 11, 12, 14, 15
OUTSIDE_THE_PROFILE = 2, 3, 4, 5, 6, 9, 13, 16

OK, INVALID_COMMAND, INVALID_ARGUMENT, SEED_LOCKED = 0, 2, 3, 5
UNSUPPORTED, NO_SUCH_HANDLE, WRONG_LOCALITY, DERIVE_NOT_ALLOWED, TOO_DEEP = 16, 17, 18, 19, 20
CONTEXTS_FULL, BOX_MALFORMED, BOX_REFUSED, POLICY_REFUSED = 21, 22, 23, 24
SERIALS_SPENT, JOURNAL_FULL, ROOT_LOCALITY, NO_DEFAULT, DEFAULT_TAKEN = 25, 26, 27, 28, 29


class Refused(Exception):
    def __init__(self, code):
        super().__init__(code)
        self.code = code


class JournalFull(Exception):
    """The history has no place left: code 26, and the connection ends."""


def number(greatest):
    return lambda value: type(value) is int and value <= greatest


def data(least, most):
    return lambda value: isinstance(value, bytes) and least <= len(value) <= most


def boolean(value):
    return isinstance(value, bool)


HANDLE, INPUT, LABEL = data(16, 16), data(64, 64), data(0, 64)

# For each command and key: the argument's name, and what its value has to be.
ARGUMENTS = {
    GET_PROFILE: {},
    INITIALIZE: {1: ("simulation", boolean), 2: ("use_default_context", boolean)},
    DERIVE: {
        1: ("handle", HANDLE),
        2: ("code", INPUT),
        3: ("configuration", INPUT),
        4: ("descriptor", data(0, 1024)),
        5: ("authority", INPUT),
        6: ("mode", number(3)),
        7: ("hidden", INPUT),
        8: ("retain", boolean),
        9: ("may_derive", boolean),
        10: ("target", number(7)),
        11: ("create_certificate", boolean),
        12: ("child_default", boolean),
    },
    SIGN: {
        1: ("handle", HANDLE),
        2: ("label", LABEL),
        3: ("retain", boolean),
        4: ("is_symmetric", boolean),
        5: ("message", data(0, 2048)),
    },
    SEAL: {
        1: ("handle", HANDLE),
        2: ("label", LABEL),
        3: ("retain", boolean),
        4: ("localities", number(255)),
        5: ("modes", number(15)),
        6: ("plaintext", data(0, 2048)),
    },
    UNSEAL: {
        1: ("handle", HANDLE),
        2: ("label", LABEL),
        3: ("retain", boolean),
        4: ("is_asymmetric", boolean),
        5: ("box", data(0, 3900)),
    },
    ROTATE: {1: ("handle", HANDLE), 2: ("to_be_default", boolean)},
    DESTROY: {1: ("handle", HANDLE), 2: ("recursively", boolean)},
}
REQUIRED = {
    GET_PROFILE: [],
    INITIALIZE: [],
    DERIVE: ["code", "authority", "mode"],
    SIGN: ["message"],
    SEAL: ["plaintext"],
    UNSEAL: ["box"],
    ROTATE: [],
    DESTROY: [],
}
# The keys that ask, where they are true, for something that this profile doesn't have.
NOT_TRUE = {INITIALIZE: (1,), DERIVE: (11,), UNSEAL: (4,)}
IS_SYMMETRIC = 4


def asks_for_more(command, fields):
    if command == SIGN:
        return fields.get(IS_SYMMETRIC, False) is False
    return any(fields.get(key) is True for key in NOT_TRUE.get(command, ()))


def read_arguments(command, fields):
    table = ARGUMENTS[command]
    if not all(key in table and table[key][1](value) for key, value in fields.items()):
        raise Refused(INVALID_ARGUMENT)
    arguments = {table[key][0]: value for key, value in fields.items()}
    if not all(name in arguments for name in REQUIRED[command]):
        raise Refused(INVALID_ARGUMENT)
    if command == DERIVE and ("configuration" in arguments) == ("descriptor" in arguments):
        raise Refused(INVALID_ARGUMENT)
    return arguments


def read_command(payload):
    """The command's number and its arguments, or the refusal of a payload that is no command."""
    try:
        session, inside = open_payload(payload)
    except Malformed:
        raise Refused(INVALID_COMMAND) from None
    if session != 0:
        raise Refused(UNSUPPORTED)
    try:
        command, fields = open_message(inside)
    except Malformed:
        raise Refused(INVALID_COMMAND) from None
    if not 1 <= command <= 16:
        raise Refused(INVALID_COMMAND)
    if command in OUTSIDE_THE_PROFILE or asks_for_more(command, fields):
        raise Refused(UNSUPPORTED)
    return command, read_arguments(command, fields)


@dataclass(frozen=True)
class Context:
    """A live context. `births` has the serial of each derivation on its way from the root, and `default` says whether it is
    the default context of its locality."""

    handle: bytes
    locality: int
    may_derive: bool
    default: bool
    births: tuple
    mode: int
    attest: bytes
    seal: bytes


class Model:
    """The state of a DPE over a seed of 32 bytes, and the step that one payload makes.

    `entries` is how many commands are answered before the history is full; None stands for no end.
    """

    def __init__(self, seed, first, entries=None):
        self.seed = seed
        self.next = first
        self.entries = entries
        self.made = False
        self.live = []

    def answer(self, locality, random, payload):
        """The reply's payload. `random` has 32 bytes: 8 and 8 for handles, 16 for a box's salt."""
        if self.entries == 0:
            raise JournalFull
        if self.entries is not None:
            self.entries -= 1
        try:
            command, arguments = read_command(payload)
            used = self.judge(command, arguments, locality)
            fields = self.execute(command, arguments, used, locality, random)
        except Refused as refusal:
            return payload_of(refusal.code, {})
        return payload_of(OK, fields)

    def judge(self, command, arguments, locality):
        """The context that the command uses, or None where it uses none; else its refusal. The order of the tests counts."""
        if command == INITIALIZE and locality != 0:
            raise Refused(ROOT_LOCALITY)
        if command == INITIALIZE and self.made:
            raise Refused(SEED_LOCKED)
        used = None
        if command not in (GET_PROFILE, INITIALIZE):
            used = self.used(arguments.get("handle"), locality)
        if command == DERIVE:
            self.judge_derivation(arguments, used)
        if used is not None and self.takes_a_taken_default(command, arguments, used, locality):
            raise Refused(DEFAULT_TAKEN)
        if self.next + self.handles_made(command, arguments) > LAST_SERIAL:
            raise Refused(SERIALS_SPENT)
        return used

    def default_of(self, locality):
        return next((context for context in self.live if context.default and context.locality == locality), None)

    def used(self, handle, locality):
        """The context that a handle names, or where none is given the caller's default one."""
        if handle is None:
            used = self.default_of(locality)
            if used is None:
                raise Refused(NO_DEFAULT)
            return used
        used = next((context for context in self.live if context.handle == handle), None)
        if used is None:
            raise Refused(NO_SUCH_HANDLE)
        if used.locality != locality:
            raise Refused(WRONG_LOCALITY)
        return used

    def judge_derivation(self, arguments, parent):
        if not parent.may_derive:
            raise Refused(DERIVE_NOT_ALLOWED)
        if len(parent.births) == GREATEST_DEPTH:
            raise Refused(TOO_DEEP)
        if arguments.get("retain", False) and len(self.live) == MOST_CONTEXTS:
            raise Refused(CONTEXTS_FULL)

    def takes_a_taken_default(self, command, arguments, used, locality):
        """Whether the command would make a second default context of one locality."""
        if command == DERIVE and arguments.get("child_default", False):
            holder = self.default_of(arguments.get("target", locality))
        elif command == ROTATE and arguments.get("to_be_default", False):
            holder = self.default_of(used.locality)
        else:
            return False
        # What the used context holds it gives up, unless it stays beside a child.
        return holder is not None and (holder is not used or (command == DERIVE and arguments.get("retain", False)))

    @staticmethod
    def handles_made(command, arguments):
        retained = 1 if arguments.get("retain", False) else 0
        return {INITIALIZE: 1, ROTATE: 1, DERIVE: 1 + retained}.get(command, retained)

    def new_handle(self, random):
        handle = self.next.to_bytes(8, "big") + random
        self.next += 1
        return handle

    def execute(self, command, arguments, used, locality, random):
        """Does an accepted command, and gives the map of its reply."""
        first, second, salt = random[:8], random[8:16], random[16:]
        if command == GET_PROFILE:
            return PROFILE
        if command == INITIALIZE:
            return {1: self.make_root(first, arguments.get("use_default_context", False))}
        if command == DERIVE:
            return self.derive(arguments, used, locality, first, second)
        if command == DESTROY:
            return self.destroy(used, arguments.get("recursively", False))
        if command == ROTATE:
            return {1: self.renew(replace(used, default=arguments.get("to_be_default", False)), first)}
        made = self.use(command, arguments, used, locality, salt)
        if arguments.get("retain", False):
            return {1: self.renew(used, first), 2: made}
        self.take_out(used)
        return {2: made}

    def make_root(self, random, default):
        self.made = True
        root = Context(self.new_handle(random), 0, True, default, (), 0, self.seed, self.seed)
        self.live.append(root)
        return root.handle

    def renew(self, used, random):
        """The context stays, under a new handle."""
        self.take_out(used)
        renewed = replace(used, handle=self.new_handle(random))
        self.live.append(renewed)
        return renewed.handle

    def take_out(self, used):
        self.live = [context for context in self.live if context.handle != used.handle]

    def derive(self, arguments, parent, locality, first, second):
        if "descriptor" in arguments:
            configuration = keys.sha512(arguments["descriptor"])
        else:
            configuration = arguments["configuration"]
        authority, mode = arguments["authority"], arguments["mode"]
        hidden = arguments.get("hidden", keys.NO_HIDDEN)
        birth = self.next
        child = Context(
            handle=self.new_handle(first),
            locality=arguments.get("target", locality),
            may_derive=arguments.get("may_derive", True),
            default=arguments.get("child_default", False),
            births=(*parent.births, birth),
            mode=mode,
            attest=keys.attest_cdi(parent.attest, arguments["code"], configuration, authority, mode, hidden),
            seal=keys.seal_cdi(parent.seal, authority, mode, hidden),
        )
        made = {1: child.handle}
        if arguments.get("retain", False):
            made[2] = self.renew(parent, second)
        else:
            self.take_out(parent)
        self.live.append(child)
        return made

    def use(self, command, arguments, used, locality, salt):
        label = arguments.get("label", b"")
        if command == SIGN:
            return keys.signature(used.attest, label, arguments["message"])
        if command == SEAL:
            localities, modes = arguments.get("localities", 255), arguments.get("modes", 15)
            return keys.seal(used.seal, label, salt, localities, modes, arguments["plaintext"])
        try:
            return keys.unseal(used.seal, label, arguments["box"], locality, used.mode)
        except keys.BoxMalformed:
            raise Refused(BOX_MALFORMED) from None
        except keys.BoxRefused:
            raise Refused(BOX_REFUSED) from None
        except keys.PolicyRefused:
            raise Refused(POLICY_REFUSED) from None

    def destroy(self, used, recursively):
        depth = len(used.births)
        below = [context for context in self.live if recursively and context.births[:depth] == used.births]
        self.live = [context for context in self.live if context is not used and context not in below]
        return {}
