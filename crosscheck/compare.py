#!/usr/bin/env python3
"""Runs random scripts through the proved bench and through twin.rs, and tells where they differ.

    rustc -O -o /tmp/twin crosscheck/twin.rs && crosscheck/compare.py crates/bench/out/bench /tmp/twin 3000
"""
import random
import struct
import subprocess
import sys


def label(kind):
    number = random.choice([1, 2, 3, 4, 5]) if random.random() < 0.9 else random.getrandbits(32)
    if kind == 1:
        return struct.pack(">I", number)
    ticks = number if number < 100_000_000 or random.random() < 0.3 else 5
    return struct.pack(">II", random.choice([7, 8]), ticks)


def header():
    """A header that reads well: its bytes, and kind, boards and map of bad boards."""
    kind, n = random.choice([1, 2]), random.choice([1, 2, 3, 4, 4, 4, 5, 6, 7, 7])
    bits, fields, bad = 0, b"", 0
    fewer = list(range((n - 1) // 3))
    if fewer and random.random() < 0.3:
        bits, fields = bits | 1, fields + bytes([random.choice(fewer)])
    if random.random() < 0.8:
        for _ in range(random.choice([1, 1, 2, 3])):
            bad |= 1 << random.randrange(n)
        bits, fields = bits | 2, fields + bytes([bad])
    phases = random.choice([1, 2, 3, 4, 8])
    if phases != 8:
        bits, fields = bits | 4, fields + bytes([phases])
    return bytes([1, n, kind, bits]) + fields, kind, n, bad


def records(kind, n, bad):
    out, turn, sender = b"", 1, -1
    for _ in range(random.choice([0, 1, 3, 10, 40])):
        if random.random() < 0.5 or sender + 1 >= n:
            turn, sender = turn + (1 if out else 0), random.randrange(n)
        else:
            sender = random.randrange(sender + 1, n)
        forged = random.randrange(1 << n) if bad >> sender & 1 else 0
        lost = random.randrange(1 << n) & ~forged if random.random() < 0.6 else 0
        if lost == 0 and forged == 0:
            lost = 1
        out += struct.pack(">HBBB", turn, sender, lost, forged)
        for board in range(n):
            if forged >> board & 1:
                out += bytes([random.choice([0, 0, 1, 1, 2, 3])]) + label(kind)
    return out


def script():
    """A script, of which some are cut and some have one byte changed."""
    head, kind, n, bad = header()
    whole = head + b"".join(label(kind) for _ in range(n)) + records(kind, n, bad)
    chance = random.random()
    if chance < 0.15:
        return whole[: random.randrange(len(whole) + 1)]
    if chance < 0.3:
        place = random.randrange(len(whole))
        return whole[:place] + bytes([random.randrange(256)]) + whole[place + 1 :]
    return whole


def main():
    bench, twin, count = sys.argv[1], sys.argv[2], int(sys.argv[3])
    random.seed(1)
    different, kinds = 0, {}
    for _ in range(count):
        given = script()
        proved = subprocess.run([bench], input=given, capture_output=True).stdout.decode()
        other = subprocess.run([twin], input=given, capture_output=True).stdout.decode()
        first = " ".join(proved.split()[:2]) if proved.startswith("fault") else "run"
        kinds[first] = kinds.get(first, 0) + 1
        if proved != other:
            different += 1
            print(given.hex(), proved, other, sep="\n")
    print(f"{different} of {count} differ", kinds)
    return 1 if different else 0


if __name__ == "__main__":
    sys.exit(main())
