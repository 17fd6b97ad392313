#!/usr/bin/env python3
"""inventory_cases.py [--write]: crates/inventory_cases/data, args and stdout, and crates/inventory_main/stdin and stdout: the inputs on which the gate
runs the inventory's program, and what it prints.

The images are the independent model's (replay_model.py, images.py); the text of the drawings stands here, those of long paths are the model's.
Without --write it says whether the files stand as made here (exit status 1 where not).
"""
import pathlib
import sys

import images
import refusals
from replay_model import inventory_text

CRATES = pathlib.Path(__file__).resolve().parent.parent.parent / "crates"
# The longest arena and text of the program.
MOST = 65_536

# Folders in folders, a node of three names, a symlink, a socket from before order 8, bytes that are escaped, and a name with a slash from before order 4,
# by which two lines are alike.
DRAWINGS = """\
3 2 4 /sans
5 2 2 /sans/bold
6 1 3 /sans/bold/A
9 1 1 /sans/bold/\\01\\0a\\1f\\20
10 1 1 /sans/bold/!~\\5c\\7f\\5c5c
11 1 1 /sans/bold/Ж\u00ad\u0080
7 2 2 /sans/none
8 3 1 /sans/a
6 1 3 /sans/A
4 1 1 /read\\20me
6 1 3 /sans/A
12 4 1 /old
""".encode()


def drawings():
    """The script that has made them, and its root."""
    b = refusals.Script()
    root = b.fresh(64)
    refusals.drawings(b, root)
    root = b.socket(root, "old")
    b.change((1, refusals.ROOT_FILE), 264 * 4 + 4, b"sans/A\0", "set the name in slot 4 of the root to sans/A")
    b.at.is_sound()
    return b, root


def still_open():
    """The image of a host that went down with a removed file open."""
    b, root = drawings()
    b.ok(b.find(root, "read me"))
    b.remove_file(root, "read me")
    b.ok()
    return b.at.arena_bytes()


def not_stored():
    """The image of one that went down before sync, with a file longer than its stored size."""
    b, root = drawings()
    b.write(b.ok(b.find(root, "read me")), 0, b"hello")
    b.ok()
    return b.at.arena_bytes()


def long_paths(length):
    """An image of 128 blocks whose text has that length: twelve folders, each in the one before, whose names are escaped from end to end, and two files."""
    b = refusals.Script()
    root = above = b.fresh(128)
    for k in range(12):
        folder = b.ok(b.create(above, bytes([k + 1]) * 255, refusals.FOLDER))
        if k == 7:
            b.close(b.ok(b.create(above, "a")))
        if k:
            b.close(above)
        above = folder
    left = length - len(inventory_text(b.at.files)) - len("16 1 1 /\n")
    b.close(b.ok(b.create(root, b"\x7f" * (left // 3) + b"b" * (left % 3))))
    text = inventory_text(b.at.files)
    assert len(text) == length, (left, len(text))
    return b.at.arena_bytes(), text


def cases():
    """A file, its bytes, and what is printed of it."""
    runs = {name: (image(), line.encode() + b"\n") for name, image, line in images.RUNS}
    drawn, _ = drawings()
    assert inventory_text(drawn.at.files) == DRAWINGS
    yield "empty", *runs["no byte"]
    yield "fresh", images.fresh().arena_bytes(), b""
    yield "drawings", drawn.at.arena_bytes(), DRAWINGS
    yield "check_not_mended", *runs["a byte of a payload changed, its check not"]
    yield "root_links", *runs["the root has 3 links"]
    yield "still_open", still_open(), b"fail rule 7\n"
    yield "not_stored", not_stored(), b"fail rule 6\n"
    yield "longest_text", *long_paths(MOST)
    yield "text_too_long", long_paths(MOST + 1)[0], b"too long\n"
    yield "image_too_long", *runs["one byte more than 65,536"]


def files():
    made = list(cases())
    for file, image, _ in made:
        yield f"inventory_cases/data/{file}", image
    yield "inventory_cases/args", "".join(f"{file}\n" for file, _, _ in made).encode()
    yield "inventory_cases/stdout", b"".join(f"{file}: \n".encode() + text for file, _, text in made)
    yield from ((f"inventory_main/{name}", data) for name, data in (("stdin", images.grown().arena_bytes()), ("stdout", b"3 1 1 /A\n4 2 2 /B\n5 1 1 /B/C\n")))


def main():
    if "--write" in sys.argv:
        for name, data in files():
            (CRATES / name).write_bytes(data)
        return 0
    other = [name for name, data in files() if (CRATES / name).read_bytes() != data]
    print(f"not as made here: {', '.join(other)}" if other else "all as made here")
    return bool(other)


if __name__ == "__main__":
    sys.exit(main())
