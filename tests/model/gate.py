#!/usr/bin/env python3
"""gate.py [--write]: crates/replay/stdin and stdout, the script that the gate runs and its lines; docs/REPLAY.md names the parts.

No line is the port's own: the Rust's calls have the Rust's lines, all else the independent model's (replay_model.py). Without --write it says
whether both files stand as made here (exit status 1 where not).
"""
import pathlib
import struct
import sys

import images
import refusals
from replay_model import BLOCK, NAMES, Script, lines

TOP = pathlib.Path(__file__).resolve().parent.parent.parent
GATE = TOP / "crates" / "replay"
SAMPLE = TOP / "tests" / "beside_rust" / "sample"
# The course examples stand in stdin alone, in front.
COURSE = 2_897
# So much of the Rust's third sequence; the rest of it has no call and answer that the others have not.
THIRD = 42_000
# The longest script that crates/replay takes.
MOST = 262_144
# The checker, the inventory into no byte, the mender and the checker again.
ASKED = b"\x1e\x26" + bytes(2) + b"\x27\x1e"


def told(script):
    return script, "".join(line + "\n" for line in lines(script)).encode()


def sample(n, most=MOST):
    """One of the Rust's sequences with its lines: the commands that end within so many bytes."""
    script, said = ((SAMPLE / f"rust-{n}.{kind}").read_bytes() for kind in ("script", "expected"))
    end, calls, read = 0, 0, Script(script)
    for name, _ in read.commands():
        if read.at > most:
            break
        end, calls = read.at, calls + (name in NAMES)
    return script[:end], b"".join(said.splitlines(True)[:calls])


def rules():
    """Images of 16 blocks that break one rule each, by pokes from a fresh one."""
    start = b"\2" + struct.pack("<I", 16 * BLOCK) + b"\x10" + bytes(16) + images.ROOT[1]
    fresh = images.fresh().arena_bytes()
    for _, image, _ in images.RUNS:
        data = image()
        if len(data) == len(fresh):
            pokes = (b"\3" + struct.pack("<IB", k, new) for k, (old, new) in enumerate(zip(fresh, data)) if old != new)
            yield start + b"".join(pokes) + ASKED


def parts():
    yield told((GATE / "stdin").read_bytes()[:COURSE])
    yield from (sample(1), sample(2), sample(3, THIRD))
    yield told(b"".join(rules()))
    yield refusals.made()


def main():
    made = list(parts())
    new = [b"".join(texts) for texts in zip(*made)]
    assert len(new[0]) <= MOST, len(new[0])
    files = GATE / "stdin", GATE / "stdout"
    if "--write" in sys.argv:
        for file, data in zip(files, new):
            file.write_bytes(data)
    same = all(file.read_bytes() == data for file, data in zip(files, new))
    print("lines of the parts:", *(text.count(b"\n") for _, text in made))
    print(f"{len(new[0])} bytes, {new[1].count(bytes([10]))} lines: crates/replay {'has' if same else 'does not have'} them")
    return 0 if same else 1


if __name__ == "__main__":
    sys.exit(main())
