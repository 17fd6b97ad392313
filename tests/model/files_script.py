#!/usr/bin/env python3
"""Makes crates/files_run/stdin and stdout: random file operations, and what the model of arenas says of each.

Run it from anywhere: python3 tests/model/files_script.py. It writes the same two files each time.
"""
import os
import random

from arena_model import Arena, Refused, sound

PRIME = 4_294_967_291
ARENA, PUT, CUT, MAKE, DROP, READ, ASK = range(1, 8)
RECORDS = 65_536 // 12
SHIFT = pow(257, 512, PRIME)
known: dict[bytes, int] = {}


def sum_of(data, h=0):
    for b in data:
        h = (h * 257 + b + 1) % PRIME
    return h


def arena_sum(blocks):
    """The sum over all bytes, block by block: each block's own sum is worked out once."""
    h = 0
    for b in blocks:
        if b not in known:
            known[b] = sum_of(b)
        h = (h * SHIFT + known[b]) % PRIME
    return h


def file_of(which, byte):
    return which, bytes([byte % 4] * 8 + [byte // 4] * 8)


def data_of(seed, size):
    return bytes((seed + 37 * i) % 256 for i in range(min(size, 480)))


def answer(act):
    try:
        act()
    except Refused as no:
        return no.reason
    return 0


def read_of(arena, file, pos, size):
    out = bytearray([238] * 1024)
    size = min(size, 1024)
    try:
        out[:size] = arena.read(file, pos, size)
    except Refused as no:
        return no.reason, out
    return 0, out


def line(arena, what, which, byte, seed, pos, size):
    file = file_of(which, byte)
    if what == PUT:
        said = f"put {answer(lambda: arena.put(file, pos, data_of(seed, size)))}"
    elif what == CUT:
        said = f"cut {answer(lambda: arena.cut(file, pos + size))}"
    elif what == MAKE:
        said = f"make {answer(lambda: arena.make(file))}"
    elif what == DROP:
        said = f"drop {answer(lambda: arena.drop(file))}"
    elif what == READ:
        reason, out = read_of(arena, file, pos, size)
        said = f"read {reason} o {sum_of(out)}"
    else:
        length = 0
        there = answer(lambda: arena.length(file)) == 0
        if there:
            length = arena.length(file)
        said = f"ask {'there' if there else 'missing'} {length}"
    return f"{said} a {arena_sum(arena.blocks)}\n"


def place(rng, reach):
    """Mostly near the start, often at the border of a block, now and then near the end of what can be."""
    kind = rng.random()
    if kind < 0.45:
        return rng.randrange(reach)
    if kind < 0.8:
        return max(0, 480 * rng.randrange(reach // 480 + 1) + rng.randrange(-2, 3))
    if kind < 0.9:
        return rng.randrange(20_000)
    if kind < 0.97:
        return rng.randrange(1 << 32)
    return (1 << 32) - 1 - rng.randrange(600)


def size_of(rng):
    return rng.choice([0, 1, 2, 16, 96, 112, 128, 264, 264, 264, 479, 480, rng.randrange(481)])


def operation(rng, arena, files, reach):
    file = rng.choice(files)
    seed = rng.randrange(256)
    kind = rng.random()
    there = arena.place(1, file_of(*file)) is not None
    if kind < 0.02:
        return (ASK, *file, seed, 0, 0)
    if not there and kind < 0.5:
        return (MAKE, *file, seed, 0, 0)
    if kind < 0.55:
        return (PUT, *file, seed, place(rng, reach), size_of(rng))
    if kind < 0.75:
        return (CUT, *file, seed, place(rng, reach), rng.choice([0] * 12 + [1, 264, 264, (1 << 32) - 1]))
    if kind < 0.79:
        return (DROP, *file, seed, 0, 0)
    if kind < 0.96:
        return (READ, *file, seed, place(rng, reach), rng.choice([0, 1, 264, 480, 1024]))
    return (ASK, *file, seed, 0, 0)


def main():
    rng = random.Random(3)
    records, lines = [], []
    while len(records) < RECORDS:
        blocks = rng.choice([16, 16, 16, 17, 24, 32, 64, 100, 128])
        run = rng.choice([60, 120, 240])
        names = rng.sample(range(16), rng.choice([1, 2, 4, 8]))
        files = [(0, 0)] + [(1, byte) for byte in names]
        reach = 480 * rng.choice([2, 6, blocks])
        records.append((ARENA, 0, 0, 0, 0, blocks))
        arena = Arena(blocks)
        for _ in range(min(run, RECORDS - len(records))):
            one = operation(rng, arena, files, reach)
            records.append(one)
            lines.append(line(arena, *one))
        assert sound(arena.bytes())
    here = os.path.join(os.path.dirname(os.path.abspath(__file__)), "..", "..", "crates", "files_run")
    with open(os.path.join(here, "stdin"), "wb") as out:
        for what, which, byte, seed, pos, size in records:
            out.write(bytes([what, which, byte, seed]) + pos.to_bytes(4, "little") + size.to_bytes(4, "little"))
    with open(os.path.join(here, "stdout"), "w", encoding="ascii") as out:
        out.writelines(lines)


if __name__ == "__main__":
    main()
