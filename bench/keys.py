#!/usr/bin/env python3
"""Counts the instructions of keyed operations by valgrind's callgrind, beside plain code over the kit's sha2 and rand_chacha,
and those of reading a Seal of 2,048 bytes beside those of sealing its bytes.

Run it at the top of the repository after `rt run` in crates/keys_bench. One operation is the difference of 110
and 10 of them, by a hundred.
"""
from measuring import callgrind


def instructions(side, operation, count):
    """What the program spends on so many operations, and what it prints."""
    spent, printed, _ = callgrind(["crates/keys_bench/out/keys_bench", side, operation, str(count)])
    return spent, printed


def one_of(side, operation):
    """What one operation takes, and what is printed after many."""
    few, _ = instructions(side, operation, 10)
    many, printed = instructions(side, operation, 110)
    return (many - few) / 100, printed


def main():
    for operation in ["hmac", "sign", "derive", "seal"]:
        ours, our_answer = one_of("ours", operation)
        straight, straight_answer = one_of("straight", operation)
        same = "the same answer" if our_answer == straight_answer else "ANOTHER ANSWER"
        print(f"{operation}: {ours:.0f} beside {straight:.0f}, {ours / straight:.3f}, {same}")
    read, _ = one_of("long", "read")
    seal, _ = one_of("long", "seal")
    short, _ = one_of("ours", "seal")
    print(f"a Seal of 2,048 bytes: read {read:.0f}, seal {seal:.0f}, {read / seal:.4f}")
    print(f"sealing 2,048 bytes beside 32: {seal / short:.2f}")


if __name__ == "__main__":
    main()
