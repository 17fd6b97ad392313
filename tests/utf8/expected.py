#!/usr/bin/env python3
"""crates/utf8_run/stdin and stdout: blocks of sequences from RFC 3629, and what Python's own strict UTF-8 decoder says of them.

The answers come from bytes.decode alone.
    expected.py            say whether both files stand as made here (exit status 1 where not)
    expected.py --write    make them
"""
import itertools
import pathlib
import sys

EDGES = [0x00, 0x7F, 0x80, 0x8F, 0x90, 0x9F, 0xA0, 0xBF, 0xC0, 0xC2, 0xF4, 0xFF]
BEFORE = "éa".encode()
AFTER = "€z".encode()


def span(low: int, high: int) -> range:
    return range(low, high + 1)


ANY = span(0x00, 0xFF)
TAIL = span(0x80, 0xBF)

BLOCKS = [
    ("every-byte", [ANY]),
    ("every-two", [ANY, ANY]),
    ("edges-three", [ANY, EDGES, EDGES]),
    ("edges-four", [ANY, EDGES, EDGES, EDGES]),
    ("two-C2-DF", [span(0xC2, 0xDF), TAIL]),
    ("three-E0", [[0xE0], span(0xA0, 0xBF), TAIL]),
    ("three-E1-EC", [span(0xE1, 0xEC), TAIL, TAIL]),
    ("three-ED", [[0xED], span(0x80, 0x9F), TAIL]),
    ("three-EE-EF", [span(0xEE, 0xEF), TAIL, TAIL]),
    ("four-F0", [[0xF0], span(0x90, 0xBF), TAIL, TAIL]),
    ("four-F1-F3", [span(0xF1, 0xF3), TAIL, TAIL, TAIL]),
    ("four-F4", [[0xF4], span(0x80, 0x8F), TAIL, TAIL]),
    ("overlong-two", [span(0xC0, 0xC1), TAIL]),
    ("overlong-three", [[0xE0], span(0x80, 0x9F), TAIL]),
    ("overlong-four", [[0xF0], span(0x80, 0x8F), TAIL, TAIL]),
    ("surrogates", [[0xED], span(0xA0, 0xBF), TAIL]),
    ("beyond-F4", [[0xF4], span(0x90, 0xBF), TAIL, TAIL]),
    ("beyond-F5-FF", [span(0xF5, 0xFF), TAIL, EDGES, EDGES]),
    ("cut-to-one", [span(0xC2, 0xF4)]),
    ("cut-to-two", [span(0xE0, 0xF4), TAIL]),
    ("cut-to-three", [span(0xF0, 0xF4), TAIL, TAIL]),
]


def is_utf8(sequence: bytes) -> bool:
    try:
        sequence.decode("utf-8", "strict")
    except UnicodeDecodeError:
        return False
    return True


def line(label: str, places: list) -> str:
    count, alone, inside, check = 0, 0, 0, 1
    for numbers in itertools.product(*places):
        sequence = bytes(numbers)
        a = is_utf8(sequence)
        i = is_utf8(BEFORE + b"a" * (4 - len(sequence)) + sequence + AFTER)
        count, alone, inside = count + 1, alone + a, inside + i
        check = (31 * check + 2 * a + i) % 1000003
    return f"{label} {count} {alone} {inside} {check}\n"


def record(label: str, places: list) -> bytes:
    """24 bytes: the length, the lowest and the highest byte of each of four places (the edges: above and below), the name."""
    four = [[ord("a")]] * (4 - len(places)) + places
    ends = [(1, 0) if place is EDGES else (place[0], place[-1]) for place in four]
    return bytes([len(places), *itertools.chain(*ends)]) + label.encode().ljust(15, b"\0")


def main() -> int:
    made = {
        "stdin": b"".join(record(label, places) for label, places in BLOCKS),
        "stdout": "".join(line(label, places) for label, places in BLOCKS).encode(),
    }
    stored = pathlib.Path(__file__).resolve().parents[2] / "crates" / "utf8_run"
    if sys.argv[1:] == ["--write"]:
        for name, data in made.items():
            (stored / name).write_bytes(data)
    same = all((stored / name).read_bytes() == data for name, data in made.items())
    print("the same" if same else "not the same")
    return 0 if same else 1


if __name__ == "__main__":
    sys.exit(main())
