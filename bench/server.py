#!/usr/bin/env python3
"""Measures the server beside a lean one in C: Signs of 32 bytes, one client a door, each with so many commands under way.

Run it at the top of the repository after `rt run` in crates/dpe_server. It compiles bench/server/model.c and load.c, and runs
the model, the server and each further server that is named by turns. The median rate of each is printed, the median of its
ratios to the first program within each turn, and each one's slowest run, in which a collapse would show. Each run's summary is
looked at, and the first journal of each is checked against Python's own HMAC.
"""
import argparse
import os
import shutil
import signal
import subprocess
import sys
import tempfile
import time
from pathlib import Path
from statistics import median

HERE = Path(__file__).resolve().parent / "server"
SERVER = HERE.parent.parent / "crates/dpe_server/out/dpe_server"
FLAGS = ["-std=c11", "-D_GNU_SOURCE", "-O2", "-march=x86-64-v2", "-pthread"]
SECONDS_TO_OPEN, SECONDS_OF_A_RUN = 60, 300
MOST_ENTRIES = 65536

# The headers of a compiler, for the kit's, which has none.
HEADERS = {
    "stddef.h": """typedef __SIZE_TYPE__ size_t;
typedef __PTRDIFF_TYPE__ ptrdiff_t;
typedef __WCHAR_TYPE__ wchar_t;
#undef NULL
#define NULL ((void *)0)""",
    "stdarg.h": "typedef __builtin_va_list va_list, __gnuc_va_list;",
    "stdbool.h": "#define bool _Bool\n#define true 1\n#define false 0",
    "stdalign.h": "#define alignas _Alignas",
    "stdatomic.h": """#define atomic_load(at) __c11_atomic_load(at, __ATOMIC_SEQ_CST)
#define atomic_fetch_add(at, more) __c11_atomic_fetch_add(at, more, __ATOMIC_SEQ_CST)""",
}


class Failure(Exception):
    """What ends a measurement."""


def wanted(doors):
    """The least rate of the server beside the model's."""
    return 0.95 if doors == 1 else 0.9


def kit_tools():
    """The kit's compiler and libraries, which stand beside the folder of the `rattle` on the path."""
    for folder in Path(shutil.which("rattle") or "/").resolve().parents:
        if (folder / "toolchain/bin/clang").exists():
            return folder / "toolchain"
    raise Failure("no C compiler was found")


def kit_compiler(room):
    """The kit's compiler in the form of `find_compiler`, with its headers put into the room."""
    tools = kit_tools()
    for name, text in HEADERS.items():
        (room / name).write_text(text + "\n")
    before = [f"{tools}/bin/clang", "-isystem", room, f"--ld-path={tools}/bin/ld.lld", f"-B{tools}/lib", f"-L{tools}/lib"]
    return before + ["-nodefaultlibs"], ["-l:libc.so.6", "-l:libc_nonshared.a", "-l:libgcc.a"]


def find_compiler(named, room):
    """The words of a C compiler before the flags, and those behind the source."""
    for name in [named] if named else ["cc", "clang", "gcc"]:
        if found := shutil.which(name):
            return [found], []
    if named:
        raise Failure(f"there is no compiler {named}")
    return kit_compiler(room)


def build(compiler, name, room):
    """Compiles one of the programs."""
    before, behind = compiler
    made = room / name
    done = subprocess.run([*before, *FLAGS, "-o", made, HERE / f"{name}.c", *behind], capture_output=True, text=True)
    if done.returncode != 0:
        raise Failure(f"{name}.c doesn't compile:\n{done.stderr}")
    return made


def numbers(text):
    """The lines of a name and a number."""
    return {name: int(number) for name, number in (line.split() for line in text.splitlines())}


def await_doors(server, name, paths):
    """Waits until each door's socket is there."""
    end = time.monotonic() + SECONDS_TO_OPEN
    while not all(path.exists() for path in paths):
        if server.poll() is not None:
            raise Failure(f"the {name} didn't come up: status {server.returncode}\n{server.stderr.read()}")
        if time.monotonic() > end:
            raise Failure(f"the {name} didn't open its doors in {SECONDS_TO_OPEN} seconds")
        time.sleep(0.01)


def drive(server, name, load, words):
    """Runs the clients and then the server to its end. The lines of both."""
    try:
        clients = subprocess.run([*load, *words], capture_output=True, text=True, timeout=SECONDS_OF_A_RUN)
        if clients.returncode != 0:
            status = server.poll()
            server.kill()
            ending = "" if status is None else f"the {name} ended with status {status}\n"
            raise Failure(f"the clients of the {name} failed: {clients.stderr}{ending}{server.stderr.read()}")
        printed, complaint = server.communicate(timeout=SECONDS_OF_A_RUN)
    except subprocess.TimeoutExpired:
        raise Failure(f"the {name} or its clients didn't end in {SECONDS_OF_A_RUN} seconds") from None
    if server.returncode != 0:
        raise Failure(f"the {name} ended with status {server.returncode}\n{complaint}")
    return numbers(clients.stdout), numbers(printed)


def check_summary(name, found, doors, entries):
    right = {"connections": doors, "commands": entries, "refused": 0, "full": 0, "cut": 0}
    if found != right:
        raise Failure(f"the {name} printed {found} in the place of {right}")


def check_journal(name, seed, journal):
    done = subprocess.run([sys.executable, HERE / "check.py", seed, journal], capture_output=True, text=True)
    if done.returncode != 0:
        raise Failure(f"the {name} gave a wrong reply: {done.stderr}")


class Bench:
    """The programs, and the room in which they run."""

    def __init__(self, programs, load, underway, prefix, room):
        self.programs = programs
        self.underway = underway
        self.load = [*prefix, load]
        self.prefix = prefix
        self.room = room
        self.seed = room / "seed"
        self.seed.write_bytes(bytes(range(32)))
        self.checked = set()

    def run(self, name, doors, signs):
        """The nanoseconds that one server took for so many Signs at each door."""
        # An InitializeContext, and a DeriveContext for each context of a door.
        entries = 1 + doors * self.underway + doors * signs
        with tempfile.TemporaryDirectory(dir=self.room) as folder:
            journal = Path(folder) / "journal"
            paths = [Path(folder) / f"d{door}" for door in range(doors)]
            words = [f"{door % 8}:{path}" for door, path in enumerate(paths)]
            command = [*self.prefix, self.programs[name], self.seed, journal, "1", str(entries), "1", *words]
            with subprocess.Popen(command, stdout=subprocess.PIPE, stderr=subprocess.PIPE, text=True) as server:
                try:
                    await_doors(server, name, paths)
                    timed, summary = drive(server, name, self.load, [str(signs), str(self.underway), *words])
                finally:
                    server.kill()
            check_summary(name, summary, doors, entries)
            if (name, doors) not in self.checked:
                check_journal(name, self.seed, journal)
                self.checked.add((name, doors))
        return timed["nanoseconds"]

    def measure(self, counts, commands, repeats):
        """The rates of each program at each number of doors, one for each turn."""
        rates = {(name, doors): [] for name in self.programs for doors in counts}
        for repeat in range(repeats):
            for doors in counts:
                for name in list(self.programs)[:: 1 if repeat % 2 == 0 else -1]:
                    signs = commands // doors
                    rates[name, doors].append(doors * signs * 1e9 / self.run(name, doors, signs))
        return rates


def print_table(rates, names, counts):
    """A line for each number of doors: each median rate, the rates beside the model's in the same turn, and the slowest runs
    beside the median at the first number of doors."""
    others = names[1:]
    heads = ["doors", *names, *(f"{name} beside {names[0]}" for name in others)]
    first = "1 door" if counts[0] == 1 else f"{counts[0]} doors"
    heads += ["wanted"] * bool(others) + [f"slowest {name} beside {first}" for name in names]
    print("| " + " | ".join(heads) + " |")
    print("|---" * len(heads) + "|")
    for doors in counts:
        cells = [str(doors), *(f"{median(rates[name, doors]):,.0f}" for name in names)]
        for name in others:
            cells.append(f"{median([one / other for one, other in zip(rates[name, doors], rates[names[0], doors])]):.3f}")
        cells += [f"{wanted(doors)}"] * bool(others)
        cells += [f"{min(rates[name, doors]) / median(rates[name, counts[0]]):.3f}" for name in names]
        print("| " + " | ".join(cells) + " |")


def read_words():
    parser = argparse.ArgumentParser(description=__doc__, formatter_class=argparse.RawDescriptionHelpFormatter)
    parser.add_argument("--server", metavar="PATH", default=SERVER, type=Path, help="default: that of crates/dpe_server")
    parser.add_argument("--other", metavar="PATH", type=Path, help="a further server, measured in the same turns")
    parser.add_argument("--underway", metavar="N", type=int, default=1, help="commands under way at a door (default: 1)")
    parser.add_argument("--alone", action="store_true", help="run the model alone")
    parser.add_argument("--doors", metavar="N", type=int, nargs="+", help="default: 1 4 8 16, or 1 16 with --processors")
    parser.add_argument("--commands", metavar="N", type=int, default=8192, help="the Signs of a run (default: %(default)s)")
    parser.add_argument("--repeats", metavar="N", type=int, default=9, help="the runs of each (default: %(default)s)")
    parser.add_argument("--processors", metavar="N", type=int, help="run on the first N processors alone, by taskset")
    parser.add_argument("--compiler", metavar="NAME", help="default: cc, clang or gcc, or else that of the kit")
    words = parser.parse_args()
    some = [1, 16] if words.processors else [1, 4, 8, 16]
    words.doors = words.doors or some
    if min(words.doors) < 1 or max(words.doors) > 16 or words.repeats < 1 or words.commands < max(words.doors):
        parser.error("the numbers are at least 1, the doors at most 16, and the commands at least the doors")
    if not 1 <= words.underway <= 16:
        parser.error("1 to 16 commands are under way at a door")
    if 1 + max(words.doors) * words.underway + words.commands > MOST_ENTRIES:
        parser.error(f"a journal has at most {MOST_ENTRIES} entries")
    return words


def tied_to(processors):
    """The words that keep a program on so many processors."""
    if processors is None:
        return []
    there = sorted(os.sched_getaffinity(0))
    if not 1 <= processors <= len(there) or shutil.which("taskset") is None:
        raise Failure(f"taskset and {processors} processors are needed; there are {len(there)} processors")
    return ["taskset", "-c", ",".join(map(str, there[:processors]))]


def measure(words, room):
    prefix = tied_to(words.processors)
    if not words.alone and not words.server.exists():
        raise Failure(f"there is no server at {words.server}; build it, or run the model alone by --alone")
    compiler = find_compiler(words.compiler, room)
    programs = {"model": build(compiler, "model", room)}
    if not words.alone:
        programs["server"] = words.server.resolve()
    if words.other:
        programs["other"] = words.other.resolve()
    bench = Bench(programs, build(compiler, "load", room), words.underway, prefix, room)
    load = os.getloadavg()[0]
    rates = bench.measure(words.doors, words.commands, words.repeats)
    print(f"Commands a second, the medians of {words.repeats} runs of {words.commands:,} Signs, {words.underway} under way at a door.")
    print(f"{words.processors or len(os.sched_getaffinity(0))} processors, load {load:.1f} before, {Path(compiler[0][0]).name}.")
    print()
    print_table(rates, list(programs), words.doors)


def main():
    signal.signal(signal.SIGTERM, lambda *_: sys.exit("server.py: stopped"))
    words = read_words()
    try:
        with tempfile.TemporaryDirectory(prefix="dpe_") as room:
            measure(words, Path(room))
    except Failure as failure:
        sys.exit(f"server.py: {failure}")


if __name__ == "__main__":
    main()
