#!/usr/bin/env python3
"""Counts the instructions of commands inside the executor, by valgrind's callgrind, and takes their times.

Run it at the top of the repository after `rt run` in crates/core_bench and crates/keys_bench. A command that can be done many
times over is the difference of 2,148 and 100 of them, by 2,048: so each of 1,024 contexts has the command twice. One that
destroys is done once, and so is one on the default context, whose handle is the oldest then. Words behind the script's name
are the commands to count; `default` counts those on the default context, and `time` alone takes the times.
"""
import re
import sys

from measuring import callgrind, least

BENCH = "crates/core_bench/out/core_bench"
KEYS = "crates/keys_bench/out/keys_bench"
# The function of the program that only calls the executor.
EXECUTE = "core_bench::bench::Bench::count"
# The kit's functions, from which a command's keyed work is made.
KIT = re.compile(r"<?(sha2|rand_chacha)::")
# The commands with a keyed function, which keys_bench does by the same name. What a command takes beyond it is its own.
KEYED = ["sign", "seal", "unseal", "derive"]
# The commands that end what they are done on.
ONCE = ["destroy", "recursive", "family"]
FEW, MANY = 100, 2148
# The most live contexts, and the depth of the deepest.
MOST_LIVE, MOST_DEPTH = 1024, 32
# Around a session of 0 and a byte string, a code of 0.
ACCEPTED = re.compile("8200(4.|5[0-7]|58..|59....)8200")

# How often a command is done for its time, and in how many turns.
TIMES = 20_000
ROUNDS = 15


class Spent:
    """The instructions of a run inside the executor."""

    def __init__(self, live, depth, kind, context, count):
        options = ["--compress-strings=no", "--compress-pos=no", f"--toggle-collect={EXECUTE}*"]
        _, printed, lines = callgrind([BENCH, str(live), str(depth), kind, str(count), context], options)
        self.printed = printed.decode().strip()
        self.costs = {}
        self.read(lines)

    def read(self, lines):
        function, called = None, False
        for line in lines:
            if line.startswith("fn="):
                function = line[3:]
            elif line.startswith("calls="):
                called = True
            elif cost := re.match(r"(?:0x)?[0-9a-f]+ (\d+)$", line):
                if not called:
                    self.costs[function] = self.costs.get(function, 0) + int(cost.group(1))
                called = False


class Command:
    """What one command spends, on the oldest context by its handle or on the default one."""

    def __init__(self, live, depth, kind, context="handle", once=False):
        few, many = (0, 1) if once or kind in ONCE else (FEW, MANY)
        before, after = Spent(live, depth, kind, context, few), Spent(live, depth, kind, context, many)
        if not ACCEPTED.match(after.printed):
            sys.exit(f"{kind}: {after.printed}")
        turns = many - few
        self.functions = {name: (cost - before.costs.get(name, 0)) / turns for name, cost in after.costs.items()}
        self.all = sum(self.functions.values())
        self.outside = sum(cost for name, cost in self.functions.items() if not KIT.match(name))


def keyed(kind):
    """The instructions of the keyed function alone."""
    if kind not in KEYED:
        return 0
    few, many = [callgrind([KEYS, "ours", kind, str(count)])[0] for count in [10, 110]]
    return (many - few) / 100


def beside(kind, most_live, most_depth):
    """One command with few and with many contexts, and with a shallow and a deep one."""
    alone, deep, crowd = Command(1, 0, kind), Command(1, most_depth, kind), Command(most_live, 1, kind)
    print(f"{kind}: {alone.all:.0f}", end="")
    print(f", at {most_live} contexts {crowd.all:.0f}, {crowd.all / alone.all:.3f}", end="")
    print(f", at depth {most_depth} {deep.all:.0f}, {deep.all / alone.all:.3f}")
    print(f"  outside the kit's functions {alone.outside:.0f}, {alone.outside / alone.all:.3f}; its own {alone.all - keyed(kind):.0f}")
    for name, cost in sorted(alone.functions.items(), key=lambda entry: -entry[1]):
        if cost >= 20 and not KIT.match(name):
            print(f"    {cost:.0f} {name}, at {most_live} contexts {crowd.functions.get(name, 0):.0f}")


def by_default():
    """One command on the default context beside one by handle, each on the oldest context, alone and among many."""
    for kind in ["rotate", "sign", "seal", "unseal", "derive", "destroy"]:
        for live in [1, MOST_LIVE - (kind == "derive")]:
            depth = 0 if live == 1 else 1
            named, default = (Command(live, depth, kind, context, True).all for context in ["handle", "default"])
            print(f"{kind} at {live}: by handle {named:.0f}, of the default context {default:.0f}, {default / named:.3f}")


def family():
    """What a recursive DestroyContext of a root takes for each row, at both depths of the contexts below it."""
    half = MOST_LIVE // 2
    for depth in [1, MOST_DEPTH]:
        few, many = Command(half, depth, "family"), Command(MOST_LIVE, depth, "family")
        print(f"family at depth {depth}: {many.all:.0f} at {MOST_LIVE} contexts, {(many.all - few.all) / half:.0f} a row")
    few, many = Command(half, 1, "recursive"), Command(MOST_LIVE, 1, "recursive")
    print(f"recursive: {many.all:.0f} at {MOST_LIVE} contexts, {(many.all - few.all) / half:.0f} a row that is spared")


def times():
    """The time of commands and of their keyed functions, in blocks of SHA-512 and at 0.3 microseconds a block."""
    turns = str(TIMES)
    runs = {"block": ([KEYS, "straight", "hmac", str(10 * TIMES)],), "nothing": ([KEYS, "straight", "hmac", "0"],)}
    for kind in ["rotate", *KEYED]:
        runs[kind] = ([BENCH, "1", "0", kind, turns, "handle"],)
    for kind in KEYED:
        runs[f"keyed {kind}"] = ([KEYS, "ours", kind, turns],)
    best = least(runs, ROUNDS)
    start = best["nothing"]
    # An HMAC of a short message is four blocks.
    block = (best["block"] - start) / (40 * TIMES)
    print(f"a block takes {1e6 * block:.3f} microseconds")
    for kind in ["rotate", *KEYED]:
        whole = (best[kind] - start) / TIMES
        own = whole - (best[f"keyed {kind}"] - start) / TIMES if kind in KEYED else whole
        print(f"{kind}: {1e6 * whole:.2f} microseconds, its own {own / block:.2f} blocks, at 0.3 a block {0.3 * own / block:.2f}")


def main():
    every = ["rotate", "sign", "seal", "unseal", "derive", "destroy", "recursive", "family", "default", "time"]
    for kind in sys.argv[1:] or every:
        if kind == "family":
            family()
        elif kind == "default":
            by_default()
        elif kind == "time":
            times()
        # A child is derived in each turn, so that one context less lives, and its parent is less deep by one.
        elif kind == "derive":
            beside(kind, MOST_LIVE - 1, MOST_DEPTH - 1)
        else:
            beside(kind, MOST_LIVE, MOST_DEPTH)


if __name__ == "__main__":
    main()
