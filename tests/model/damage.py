#!/usr/bin/env python3
"""What crates/damage must print, by a model of "The arena (added)" and "Sound" that shares nothing with the port.

    python3 tests/model/damage.py        writes crates/damage/stdin and crates/damage/stdout
    python3 tests/model/damage.py -n     only compares them with what is there

Two sound arenas of 16 blocks are made. Of each, every byte is changed by adding 1, 128 and 255 (modulo 256), one at a time, and the
arena is judged: as it is, and with the check of the changed block made right again. A block gives two lines of 512 digits, a digit for a
byte: the sum of 1, 2 and 4 for the changes that leave the arena sound.
"""
import os
import sys

BLOCK = 512


def total(block):
    return sum((i + 1) * block[i] for i in range(508))


def mended(block):
    return bytes(block[:508]) + total(block).to_bytes(4, "little")


def used(tag, which, name, number, payload=b""):
    block = bytearray(BLOCK)
    block[0], block[1] = tag, which
    block[4:20] = name
    block[20:24] = number.to_bytes(4, "little")
    block[24:24 + len(payload)] = payload
    return mended(block)


def sound(arena):
    """The paragraph "Sound", over a map of the files that the heads name."""
    blocks = [arena[i:i + BLOCK] for i in range(0, len(arena), BLOCK)]
    files, parts = {}, []
    for b in blocks:
        if b[0] == 0:
            if any(b):
                return False
            continue
        if b[0] not in (1, 2) or b[1] not in (0, 1) or any(b[2:4]) or any(b[504:508]):
            return False
        if int.from_bytes(b[508:512], "little") != total(b):
            return False
        key, number = (b[1], bytes(b[4:20])), int.from_bytes(b[20:24], "little")
        if b[1] == 0 and any(b[4:20]):
            return False
        if b[0] == 1:
            if any(b[24:504]) or key in files:
                return False
            files[key] = number
        else:
            parts.append((key, number, b[24:504]))
    seen = set()
    for key, number, payload in parts:
        if (key, number) in seen or key not in files:
            return False
        seen.add((key, number))
        left = files[key] - 480 * number
        if left <= 0 or (left < 480 and any(payload[left:])):
            return False
    return True


def arenas():
    zero = bytes(16)
    a, b, c = bytes(range(1, 17)), bytes(range(1, 16)) + b"\x11", bytes(range(200, 216))
    data = bytes((7 * i + 3) % 256 for i in range(480))
    first = [
        used(1, 0, zero, 1000), used(2, 0, zero, 0, data), used(2, 0, zero, 2, data[:40]), used(2, 1, a, 0, data),
        bytes(BLOCK), used(1, 1, a, 480), used(1, 1, b, 1441), used(2, 1, b, 3, b"\x09"),
        used(2, 0, zero, 1, data), used(1, 1, c, 0), bytes(BLOCK), used(2, 1, b, 1, data),
        used(1, 1, zero, 257), used(2, 1, zero, 0, data[:257]), bytes(BLOCK), bytes(BLOCK),
    ]
    second = [
        bytes(BLOCK), used(2, 1, c, 1, data[:33]), used(1, 1, c, 513), used(1, 1, zero, 0),
        used(1, 1, a, 4294967295), used(2, 1, a, 8947848, data[:255]), used(2, 1, a, 0, data), used(1, 1, b, 700),
    ] + [bytes(BLOCK)] * 8
    return [b"".join(first), b"".join(second)]


def lines(arena):
    assert sound(arena)
    for k in range(0, len(arena), BLOCK):
        raw, right = "", ""
        for i in range(k, k + BLOCK):
            r = m = 0
            for bit, add in ((1, 1), (2, 128), (4, 255)):
                w = bytearray(arena)
                w[i] = (w[i] + add) % 256
                r += bit * sound(bytes(w))
                w[k:k + BLOCK] = mended(w[k:k + BLOCK])
                m += bit * sound(bytes(w))
            raw, right = raw + str(r), right + str(m)
        yield raw
        yield right


def main():
    crate = os.path.join(os.path.dirname(os.path.abspath(__file__)), "..", "..", "crates", "damage")
    made = arenas()
    answers = "".join(line + "\n" for arena in made for line in lines(arena)).encode()
    for name, text in (("stdin", b"".join(made)), ("stdout", answers)):
        path = os.path.join(crate, name)
        if "-n" in sys.argv[1:]:
            with open(path, "rb") as f:
                assert f.read() == text, path
        else:
            with open(path, "wb") as f:
                f.write(text)
    kept = sum(bin(int(d)).count("1") for line in answers.decode().split() for d in line)
    print(f"{len(answers.split()) * 512 * 3} verdicts, {kept} of them sound")


if __name__ == "__main__":
    main()
