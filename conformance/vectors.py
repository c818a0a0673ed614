"""The lines of vectors/*.txt: what they say, and how they are read. README.md of this folder has their form."""
from __future__ import annotations

from dataclasses import dataclass, field
from pathlib import Path

FOLDER = Path(__file__).parent / "vectors"
HEAD_BYTES, LONGEST_PAYLOAD = 4, 4096
ENDS = "+end"


@dataclass
class Side:
    """The bytes that one side sends, and whether it then ends its direction of the connection."""

    data: bytes
    ends: bool = False

    def __str__(self):
        return self.data.hex() + (ENDS if self.ends else "")

    @staticmethod
    def read(word):
        return Side(bytes.fromhex(word.removesuffix(ENDS)), word.endswith(ENDS))


@dataclass
class Vector:
    name: str
    locality: int
    random: bytes
    asked: Side
    answered: Side

    def __str__(self):
        return f"{self.name} {self.locality} {self.random.hex()} {self.asked} {self.answered}"

    @staticmethod
    def read(line):
        name, locality, random, asked, answered = line.split(" ")
        return Vector(name, int(locality), bytes.fromhex(random), Side.read(asked), Side.read(answered))


@dataclass
class Group:
    """One file: the life of one DPE, from its start on."""

    name: str
    seed: bytes
    first: int
    entries: int | None = None
    vectors: list = field(default_factory=list)

    def has_connections(self):
        """Whether it says how connections end, which a tape can't."""
        return self.entries is not None or any(one.asked.ends or one.answered.ends for one in self.vectors)


def read_group(path):
    group = Group(Path(path).stem, b"", 0)
    for line in Path(path).read_text(encoding="ascii").splitlines():
        word, _, rest = line.partition(" ")
        if not line or word == "#":
            continue
        if word == "seed":
            group.seed = bytes.fromhex(rest)
        elif word == "first":
            group.first = int(rest)
        elif word == "entries":
            group.entries = int(rest)
        else:
            group.vectors.append(Vector.read(line))
    return group


def all_groups():
    return [read_group(path) for path in sorted(FOLDER.glob("*.txt"))]


def split_frames(data):
    """The whole frames at the front of some bytes, each with its head, and what stands behind them."""
    frames = []
    while len(data) >= HEAD_BYTES:
        length = int.from_bytes(data[:HEAD_BYTES], "big")
        end = HEAD_BYTES + length
        if length > LONGEST_PAYLOAD or len(data) < end:
            break
        frames.append(data[:end])
        data = data[end:]
    return frames, data
