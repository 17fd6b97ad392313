#!/usr/bin/env python3
"""images.py [COMMAND..]: the checker's program on stored images: fresh, grown, each rule broken alone, too long, empty.

Each image is made by the independent model and changed with its checks mended, then given to COMMAND (tests/run fsck_main) on standard
input; what it prints is compared with the line that stands here. (Rule 2 is about the table, which is empty for the program; a call
script breaks it, docs/REPLAY.md.)
"""
import os
import subprocess
import sys

from arena_model import META
from replay_model import FOLDER, SHAPES, Model

HERE = os.path.dirname(os.path.abspath(__file__))
ROOT = (1, bytes(range(1, 17)))
TIME = (0, 0)


def fresh(blocks=16):
    model = Model()
    model.set_arena(bytes(512 * blocks))
    model.format(TIME, ROOT[1])
    return model


def done(model, *calls):
    """The model after these calls of owner 1, all of which are done."""
    for name, *args in calls:
        line = model.run(name, (1, *args) if SHAPES[name].startswith("p") else args)
        assert " ok" in line, line
    return model


def grown():
    """A file `A` and a folder `B` with a file `C`, all of them closed."""
    root = (0, 1)
    return done(fresh(32), ("root",), ("create", root, b"A", 1, 420, TIME, b"A" * 16), ("create", root, b"B", FOLDER, 493, TIME, b"B" * 16),
                ("create", (2, 3), b"C", 1, 420, TIME, b"C" * 16), ("close", (3, 4)), ("close", (2, 3)), ("close", (1, 2)), ("close", root))


def changed(file, pos, data, model=None):
    model = model or fresh()
    model.files.put(file, pos, data)
    return model.arena_bytes()


def poked(place, value):
    data = bytearray(fresh().arena_bytes())
    data[place] ^= value
    return bytes(data)


def u32(n):
    return n.to_bytes(4, "little")


def with_contents():
    """The same, with bytes in `A` across two blocks, and `C` longer than what it has."""
    root, a, c = (0, 1), (1, 2), (3, 4)
    return done(grown(), ("open",), ("root",), ("find", root, b"A"), ("find", root, b"B"), ("find", (2, 3), b"C"),
                ("write", a, 470, b"outline" * 3), ("resize", c, 5000), ("write", c, 9999, b""), ("sync",))


def resized(file, size):
    model = with_contents()
    model.files.cut((1, file), size)
    return model.arena_bytes()


def other_file():
    model = fresh()
    model.files.make((1, b"x" * 16))
    return model.arena_bytes()


def with_unused(n):
    model = fresh()
    model.files.put(META, 8, u32(n))
    return model


RECORD = 128 * 2
RUNS = (
    ("a fresh image of 16 blocks", lambda: fresh().arena_bytes(), "pass nodes 1 unused 1021 free 11"),
    ("a fresh image of 128 blocks", lambda: fresh(128).arena_bytes(), "pass nodes 1 unused 1021 free 123"),
    ("grown: A, B, B/C", lambda: grown().arena_bytes(), "pass nodes 4 unused 1018 free 20"),
    ("grown, with contents", lambda: with_contents().arena_bytes(), "pass nodes 4 unused 1018 free 18"),
    ("no byte", lambda: b"", "fail rule 1"),
    ("one byte more than 65,536", lambda: fresh(128).arena_bytes() + b"\0", "fail rule 1"),
    ("a fresh image of 129 blocks", lambda: fresh(129).arena_bytes(), "fail rule 1"),
    ("15 blocks", lambda: bytes(512 * 15), "fail rule 1"),
    ("a byte of a payload changed, its check not", lambda: poked(512 * 2 + 100, 1), "fail rule 1"),
    ("no metadata file", lambda: bytes(512 * 16), "fail rule 3"),
    ("another magic", lambda: changed(META, 0, u32(1)), "fail rule 3"),
    ("one unused id too many", lambda: changed(META, 8, u32(1022)), "fail rule 3"),
    ("node 2 is free", lambda: changed(META, 128, b"\xfc", with_unused(1022)), "fail rule 4"),
    ("node 2 is a file", lambda: changed(META, RECORD + 8, u32(1)), "fail rule 5"),
    ("a file that is no node's", other_file, "fail rule 5"),
    ("slot 0 has another name", lambda: changed(ROOT, 4, b",\0"), "fail rule 6"),
    ("slot 1 is of type 1", lambda: changed(ROOT, 264 + 260, u32(1)), "fail rule 6"),
    ("a file is longer than its size", lambda: resized(b"A" * 16, 492), "fail rule 6"),
    ("a file is shorter than its size", lambda: resized(b"C" * 16, 9998), "fail rule 6"),
    ("a size of 2^64 - 1", lambda: changed(META, 128 * 3, b"\xff" * 8, grown()), "fail rule 6"),
    ("the root has 3 links", lambda: changed(META, RECORD + 14, b"\3\0"), "fail rule 7"),
    ("`..` of the root names node 3", lambda: changed(ROOT, 264, u32(3)), "fail rule 8"),
)


def main():
    command = sys.argv[1:] or [os.path.join(HERE, "..", "run"), "fsck_main"]
    equal = 0
    for name, image, line in RUNS:
        got = subprocess.run(command, input=image(), stdout=subprocess.PIPE, check=False).stdout.decode().strip()
        equal += got == line
        if got != line:
            print(f"{name}\n    got  {got}\n    want {line}")
    print(f"{equal} of {len(RUNS)} runs equal")
    return equal != len(RUNS)


if __name__ == "__main__":
    sys.exit(main())
