#!/usr/bin/env python3
"""Refuses each request for memory of the proved programs in turn, and looks at how each run ends.

Run it at the top of the repository after `rt ci`, or give it the folder of the programs. A run has to end as the one in which
nothing is refused, or with status 3 and what that status promises: nothing printed, and no file made. It ends with 1 where one
doesn't. It needs a C compiler (`cc`).
"""
import argparse
import os
import socket
import subprocess
import sys
import tempfile
import threading
import time
from dataclasses import dataclass, field
from pathlib import Path

HERE = Path(__file__).parent.resolve()
PROGRAMS = "dpe_server", "dpe_client", "dpe_replay", "dpe_batch", "dpe_ratchet", "dpe_vault", "dpe_quote"
WANT_OF_MEMORY, PATIENCE_SECONDS = 3, 60
INITIALIZE, PROFILE = (bytes.fromhex(f"0000000682004382{number}a0") for number in ("07", "01"))
TAPE = b"".join(bytes(33) + frame for frame in (INITIALIZE, PROFILE))
# The journal of one GetProfile (docs/JOURNAL.md).
JOURNAL = (
    b"DPEJ\x01" + (1).to_bytes(8, "big") + b"\x01" + (7).to_bytes(4, "big") + bytes(41) + b"\x00\x06" + PROFILE[4:]
    + b"\x00\x23\x82\x00\x58\x1f\x82\x00\xa4\x01odpe-symmetric-2\x02\x19\x10\x00\x03\x19\x04\x00\x04\x18\x20"
    + b"\xff" + (1).to_bytes(8, "big")
)
SCRIPT = b"0 init rom\n0 derive rom kid code=*11 config=*21 authority=*31 mode=1 keep=rom2\n0 sign kid message=6869\n"


@dataclass
class Run:
    """The words of a program, its standard input, the files that it finds, and what is done beside it in its folder."""

    words: list
    stdin: bytes = b""
    files: dict = field(default_factory=dict)
    beside: object = None
    server: bool = False


def connect(path):
    """Sends a command to the door at this path, as soon as there is one, and ends the connection."""
    end = time.monotonic() + PATIENCE_SECONDS
    while time.monotonic() < end:
        try:
            with socket.socket(socket.AF_UNIX, socket.SOCK_STREAM) as link:
                link.settimeout(PATIENCE_SECONDS)
                link.connect(str(path))
                link.sendall(INITIALIZE)
                link.shutdown(socket.SHUT_WR)
                while link.recv(4096):
                    pass
            return
        except (FileNotFoundError, ConnectionRefusedError):
            time.sleep(0.005)


def start_server(programs, folder):
    """A server with one door, which listens when this returns."""
    folder.mkdir()
    (folder / "seed").write_bytes(bytes(32))
    server = subprocess.Popen([programs / "dpe_server", "seed", "journal", "2", "16", "1", "0:door"], cwd=folder,
                              stdout=subprocess.DEVNULL)
    while not (folder / "door").exists():
        time.sleep(0.005)
    time.sleep(0.02)
    return server


class Trials:
    def __init__(self, programs, scratch):
        self.programs, self.scratch, self.faults = programs, scratch, 0
        self.shim, self.count = scratch / "refuse.so", scratch / "count"
        subprocess.run(["cc", "-O2", "-shared", "-fPIC", "-o", self.shim, HERE / "memory" / "refuse.c"], check=True)

    def ended(self, run, refused):
        """How a run ended: its status, what it printed, and the files that it made."""
        with tempfile.TemporaryDirectory(dir=self.scratch) as name:
            folder = Path(name) / "run"
            folder.mkdir()
            for file, data in run.files.items():
                (folder / file).write_bytes(data)
            server = start_server(self.programs, Path(name) / "server") if run.server else None
            self.count.unlink(missing_ok=True)
            program = subprocess.Popen(
                [self.programs / run.words[0], *run.words[1:]], cwd=folder, stdin=subprocess.PIPE, stdout=subprocess.PIPE,
                stderr=subprocess.DEVNULL,
                env=os.environ | {"LD_PRELOAD": str(self.shim), "REFUSE": str(refused), "COUNT": str(self.count)},
            )
            if run.beside:
                threading.Thread(target=run.beside, args=(folder / "door",), daemon=True).start()
            try:
                printed, _ = program.communicate(run.stdin, timeout=PATIENCE_SECONDS)
            except subprocess.TimeoutExpired:
                program.kill()
                printed, _ = program.communicate()
            if server:
                server.kill()
                server.wait()
            return program.returncode, printed, {path.name for path in folder.iterdir()} - run.files.keys()

    def attempt(self, run):
        """Refuses nothing, and then each request in turn."""
        wanted = self.ended(run, 0)
        requests = int.from_bytes(self.count.read_bytes(), sys.byteorder)
        without = as_before = 0
        for refused in range(1, requests + 1):
            came = self.ended(run, refused)
            if came == (WANT_OF_MEMORY, b"", set()):
                without += 1
            elif came == wanted:
                as_before += 1
            else:
                self.faults += 1
                print(f"memory: request {refused} of {' '.join(run.words)}: {came}, and not {wanted}", file=sys.stderr)
        print(f"| `{' '.join(run.words[:2])}` | {wanted[0]} | {requests} | {without} | {as_before} |", flush=True)


def runs():
    seed = {"seed": bytes(32)}
    yield Run(["dpe_batch", "run", "00" * 32, "1"], TAPE)
    yield Run(["dpe_batch", "load", "7", "100"])
    for words in ["check", "seed"], ["live", "seed"], ["list"], ["connection"]:
        last = ["7", "0"] if words == ["connection"] else []
        yield Run(["dpe_replay", *words, "journal", *last], files=seed | {"journal": JOURNAL})
    yield Run(["dpe_ratchet", "seal", "00" * 32, "5", "5", "", "00" * 16], b"data")
    yield Run(["dpe_vault", "4"], bytes.fromhex("0003000000"))
    yield Run(["dpe_quote", "make", "00" * 8, "00" * 64])
    yield Run(["dpe_client", "script", "../server/door"], files={"script": SCRIPT}, server=True)
    yield Run(["dpe_client", "bad", "../server/door"], files={"bad": b"0 open\n"})
    yield Run(["dpe_server", "seed", "journal", "1", "16", "1", "0:door"], files=seed, beside=connect)


def main():
    parser = argparse.ArgumentParser(description=__doc__, formatter_class=argparse.RawDescriptionHelpFormatter)
    parser.add_argument("folder", metavar="FOLDER", nargs="?", help="has the programs; else those proved here are taken")
    folder = parser.parse_args().folder
    with tempfile.TemporaryDirectory() as name:
        scratch = Path(name)
        programs = scratch / "programs"
        programs.mkdir()
        for program in PROGRAMS:
            made = Path(folder or f"crates/{program}/out") / program
            (programs / program).symlink_to(made.resolve(strict=True))
        trials = Trials(programs, scratch)
        for run in runs():
            trials.attempt(run)
    return 1 if trials.faults else 0


if __name__ == "__main__":
    sys.exit(main())
