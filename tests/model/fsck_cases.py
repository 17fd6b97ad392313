#!/usr/bin/env python3
"""fsck_cases.py [--write]: crates/fsck_cases/data, args and stdout, the inputs on which the gate runs the checker's program, and its lines.

The images are the independent model's (images.py). Without --write it says whether the files stand as made here (exit status 1 where not).
"""
import pathlib
import sys

import images

CRATE = pathlib.Path(__file__).resolve().parent.parent.parent / "crates" / "fsck_cases"
# A file, and which of images.RUNS it is.
RUNS = (
    ("empty", "no byte"),
    ("fresh", "a fresh image of 16 blocks"),
    ("grown", "grown, with contents"),
    ("longest", "a fresh image of 128 blocks"),
    ("too_long", "one byte more than 65,536"),
    ("check_not_mended", "a byte of a payload changed, its check not"),
    ("root_links", "the root has 3 links"),
    ("root_dots", "`..` of the root names node 3"),
)


def cases():
    runs = {name: (image(), line) for name, image, line in images.RUNS}
    for file, name in RUNS:
        yield file, *runs[name]
    yield "part_of_a_block", images.fresh().arena_bytes() + b"\0", "fail rule 1"


def files():
    made = list(cases())
    for file, image, _ in made:
        yield f"data/{file}", image
    yield "args", "".join(f"{file}\n" for file, _, _ in made).encode()
    yield "stdout", "".join(f"{file}: {line}\n" for file, _, line in made).encode()


def main():
    if "--write" in sys.argv:
        for name, data in files():
            (CRATE / name).write_bytes(data)
        return 0
    other = [name for name, data in files() if (CRATE / name).read_bytes() != data]
    print(f"not as made here: {', '.join(other)}" if other else "all as made here")
    return bool(other)


if __name__ == "__main__":
    sys.exit(main())
