#!/usr/bin/env python3
"""calls.py: every kind of call timed on the Rust and on the port, tested and by an owner, by the same call scripts (docs/REPLAY.md) in one run.

An image of 16, 128, 1,024 and 4,096 blocks is filled with files, then every kind of call is made 20 times; no call is refused. Contents of 480,
8,192 and 100,000 bytes are read, written over and written into an empty file, beside a plain copy through blocks (plain.c), and 128 bytes are put in at
the start of a file of 100,000 and taken out again, beside a plain move. Walks along a path 50
deep and through 8 symlinks are timed on the port alone, and so are a folder's path beside the walk by it, check and inventory of a full image, and the mender on
what hosts leave of it. Both sides are built for release; the least of 5 rounds counts. Needs a C compiler (cc) and what tests/beside_rust needs.
"""
import os
import struct
import subprocess

TOP = os.path.dirname(os.path.dirname(os.path.dirname(os.path.abspath(__file__))))
OUT = os.path.join(TOP, "target", "bench")
ROUNDS = "5"


class Script:
    def __init__(self):
        self.out, self.stamp, self.files = bytearray(), 0, 0

    def name(self, text):
        return struct.pack("<H", len(text)) + text

    def put(self, byte, *parts):
        """A command; where somebody has to ask, owner 1 does."""
        who = b"" if byte in (2, 16, 17, 28) else b"\1"
        self.out += bytes([byte]) + who + b"".join(parts)

    def held(self, hold):
        """The handle of a hold that a call has just made."""
        self.stamp += 1
        return struct.pack("<IQ", hold, self.stamp)

    def create(self, folder, text, kind, hold):
        self.files += 1
        self.put(20, folder, self.name(text), struct.pack("<IH", kind, 420), bytes(16), self.files.to_bytes(16, "little"))
        return self.held(hold)

    def close(self, handle):
        self.put(29, handle)


def walked(blocks, path, links, rounds):
    """Walks along a path of so many folders, through so many symlinks before it, in an image of files."""
    s = Script()
    s.put(2, struct.pack("<I", 512 * blocks))
    s.put(16, bytes(16), b"r" * 16)
    s.put(18)
    root = at = s.held(0)
    for i in range(blocks // 8):
        s.close(s.create(root, b"glyph%d" % i, 1, 1))
    for i in range(path):
        # holds 1 and 2 in turn: a folder is closed when the one in it is made
        folder = s.create(at, b"d", 2, 1 + i % 2)
        if i:
            s.close(at)
        at = folder
    s.close(at)
    link = s.create(root, b"l", 3, 1)
    s.put(33, link, struct.pack("<QH", 0, 1), b".")
    s.close(link)
    text = b"/".join([b"l"] * links + [b"d"] * path)
    for _ in range(rounds):
        s.put(35, root, s.name(text), struct.pack("<H", 64))
        s.close(s.held(1))
    return bytes(s.out)


def script(blocks, rounds):
    s = Script()
    s.put(2, struct.pack("<I", 512 * blocks))
    s.put(16, bytes(16), b"r" * 16)
    s.put(18)
    root = s.held(0)
    folder = s.create(root, b"d", 2, 1)
    names = [b"glyph%d" % i for i in range(min((blocks - 14) // 2, 1000))]
    for name in names:
        s.close(s.create(root, name, 1, 2))
    for i in range(rounds):
        # a glyph in the folder's last third, where a lookup has to read two thirds of the slots
        name = names[len(names) * 2 // 3] if names else b"d"
        s.put(19, root, s.name(name))
        h = s.held(2)
        s.put(24, h)
        s.put(25, h, struct.pack("<HQQ", 420, i, i), bytes(48))
        s.put(28)
        s.close(h)
        h = s.create(root, b"new", 1, 2)
        s.put(33, h, struct.pack("<QH", 0, 400), b"outline." * 50)
        s.put(32, h, struct.pack("<QH", 0, 400))
        s.put(34, h, struct.pack("<Q", 0))
        # link, moves and remove-file in the folder that fills the image
        s.put(21, root, s.name(b"link"), h)
        s.put(23, root, s.name(b"link"), folder, s.name(b"other"))
        s.put(23, folder, s.name(b"other"), root, s.name(b"there"))
        s.put(36, root, s.name(b"there"))
        s.put(36, root, s.name(b"new"))
        s.close(h)
        s.put(26, root, struct.pack("<QH", 2, 264))
        s.put(27, root, struct.pack("<QBH", 0, 1, 8192))
        s.put(18)
        s.close(s.held(2))
    s.put(17)
    return bytes(s.out)


def full(blocks, files):
    """An image of so many files, all of them closed."""
    s = Script()
    s.put(2, struct.pack("<I", 512 * blocks))
    s.put(16, bytes(16), b"r" * 16)
    s.put(18)
    root = s.held(0)
    for i in range(files):
        s.close(s.create(root, b"glyph%d" % i, 1, 1))
    return bytes(s.out)


def late_folders(others, folders):
    """An image whose root has so many names of one file and then so many empty folders: the inventory searches the root's slots after each of these."""
    s = Script()
    s.put(2, struct.pack("<I", 512 * 4096))
    s.put(16, bytes(16), b"r" * 16)
    s.put(18)
    root = s.held(0)
    file = s.create(root, b"0", 1, 1)
    for i in range(1, others):
        s.put(21, root, s.name(b"%d" % i), file)
    s.close(file)
    for i in range(folders):
        s.close(s.create(root, b"d%d" % i, 2, 1))
    return bytes(s.out)


def build():
    os.makedirs(OUT, exist_ok=True)
    libraries = ("edge", "edge_contents", "owners", "owners_contents", "bench")
    objects = [os.path.join(OUT, f"{library}.o") for library in libraries]
    for library, made in zip(libraries, objects):
        subprocess.run([os.path.join(TOP, "tests", "native"), library, made], check=True)
    host, here = os.path.join(OUT, "calls"), os.path.join(TOP, "tests", "bench")
    subprocess.run(["cc", "-O3", "-o", host, os.path.join(here, "calls.c"), os.path.join(here, "plain.c"), *objects], check=True)
    subprocess.run([os.path.join(TOP, "tests", "beside_rust", "build")], check=True)
    return host, os.path.join(TOP, "target", "beside_rust", "driver-release")


def times(text):
    return {kind: int(ns) for kind, _, ns in (line.split() for line in text.splitlines())}


def contents(host, rust):
    """Reads and writes of three sizes, and how long a plain copy takes."""
    sizes, rows = (1024, 4096), {}
    for blocks in sizes:
        files = str(blocks // 8)
        ours = times(subprocess.run([host, "contents", str(blocks), files, ROUNDS], check=True, capture_output=True, text=True).stdout)
        theirs = times(subprocess.run([rust, "contents", files, ROUNDS], check=True, capture_output=True, text=True).stdout)
        for size in (480, 8192, 100_000):
            for kind, words in (("read", "read"), ("write", "write over"), ("new", "write anew")):
                mine, its = ours[f"{kind}{size}"], theirs[f"{kind}{size}"]
                row = rows.setdefault(f"{words}, {size:,} bytes", [])
                row.append(f"{mine / 1000:.1f} / {its / 1000:.2f} ({mine / its:.0f})")
                if blocks == sizes[-1]:
                    row.append(f"{ours[('plain-read' if kind == 'read' else 'plain-write') + str(size)] / 1000:.2f}")
        rows.setdefault("sound alone", []).append(f"{ours['sound'] / 1000:.1f}")
    rows["sound alone"].append("")
    print("\n| contents | " + " | ".join(f"{n:,} blocks" for n in sizes) + " | plain copy |\n|" + "---|" * (len(sizes) + 2))
    for kind in [k for k in rows if k != "sound alone"] + ["sound alone"]:
        print(f"| {kind} | " + " | ".join(rows[kind]) + " |")


def ranges(host, rust):
    """A line put in at the start of a file of 100,000 bytes, and taken out again. The Rust has one of 100,096: at 100,000 it breaks off (DIFFERENCES)."""
    theirs = times(subprocess.run([rust, "ranges", ROUNDS], check=True, capture_output=True, text=True).stdout)
    print("\n| 128 bytes, 100,000 after them | tested | trusted | plain move | trusted / plain | Rust |\n|---|---|---|---|---|---|")
    for blocks in (1024, 4096):
        ours = times(subprocess.run([host, "ranges", str(blocks), str(blocks // 8), ROUNDS], check=True, capture_output=True, text=True).stdout)
        for act in ("insert", "collapse"):
            tested, trusted, plain = (ours[f"{way}-{act}"] / 1000 for way in ("tested", "trusted", "plain"))
            print(f"| {act}, {blocks:,} blocks | {tested:.1f} | {trusted:.1f} | {plain:.1f} | {trusted / plain:.2f} | {theirs[act] / 1000:.1f} |")


def paths(host):
    """A folder's path, and the walk by it."""
    print("\n| path, 4,096 blocks | tested: path / walk | trusted: path / walk |\n|---|---|---|")
    for depth, files in ((50, 512), (50, 0), (1000, 0)):
        ns = times(subprocess.run([host, "paths", str(depth), str(files), ROUNDS], check=True, capture_output=True, text=True).stdout)
        cells = []
        for who in ("tested", "owner"):
            path, walk = ns[who + "-path"], ns[who + "-walk"]
            cells.append(f"{path / 1000:.1f} / {walk / 1000:.1f} ({path / walk:.2f})")
        print(f"| {depth:,} deep, {files} files in the root | " + " | ".join(cells) + " |")


def main():
    host, rust = build()
    path = os.path.join(OUT, "calls.script")

    def port(data, *way):
        with open(path, "wb") as file:
            file.write(data)
        return times(subprocess.run([host, path, ROUNDS, *way], check=True, capture_output=True, text=True).stdout)

    sizes, rows = (16, 128, 1024, 4096), {}
    for blocks in sizes:
        data = script(blocks, 20)
        tested, owner = port(data), port(data, "own")
        theirs = times(subprocess.run([rust, "timed", ROUNDS], input=data, check=True, capture_output=True).stdout.decode())
        for kind, ns in theirs.items():
            rows.setdefault(kind, []).append(f"{ns / 1000:.2f} / {tested[kind] / 1000:.1f} / {owner[kind] / 1000:.1f} ({owner[kind] / ns:.1f})")
        rows.setdefault("sound alone", []).append(f"{tested['sound'] / 1000:.1f}")
    print("| call | " + " | ".join(f"{n:,} blocks" for n in sizes) + " |\n|" + "---|" * (len(sizes) + 1))
    for kind in [k for k in rows if k != "sound alone"] + ["sound alone"]:
        print(f"| {kind} | " + " | ".join(rows[kind]) + " |")
    contents(host, rust)
    ranges(host, rust)
    way = times(subprocess.run([host, "deep", "1000", ROUNDS], check=True, capture_output=True, text=True).stdout)
    print("a folder moved below 1,000 folders, and back to the root:")
    for who in ("tested", "owner"):
        print(f"    {who}: {way[who + '-down'] / 1000:.1f} and {way[who + '-up'] / 1000:.1f} µs")
    print("walks, tested and by an owner:")
    for depth, links in ((50, 0), (1, 8), (50, 8)):
        data = walked(4096, depth, links, 20)
        print(f"    {depth} deep, {links} symlinks, 4,096 blocks: {port(data)['walk'] / 1000:.1f} and {port(data, 'own')['walk'] / 1000:.1f} µs")
    paths(host)
    for blocks, files in ((128, 66), (4096, 2225)):
        listed(f"{blocks:,} blocks with {files:,} files", port(full(blocks, files)))
    listed("4,096 blocks with 577 empty folders after 3,430 other names", port(late_folders(3430, 577), "own"))
    left = times(subprocess.run([host, "mend", "4096", "2225", ROUNDS], check=True, capture_output=True, text=True).stdout)
    print(f"the mender, 4,096 blocks with 2,225 files: check {left['check'] / 1000:.0f} µs")
    for kind, words in (("idle", "nothing to mend"), ("death", "28 held nodes removed, their sizes not stored"), ("sizes", "every size wrong"), ("lost", "no name left")):
        print(f"    {words}: {left[kind] / 1000:.0f} µs ({left[kind] / left['check']:.2f})")


def listed(what, ns):
    check, inventory = ns["check"] / 1000, ns["inventory"] / 1000
    print(f"{what}: check {check:.0f} µs, inventory {inventory:.0f} µs ({inventory / check:.2f})")


if __name__ == "__main__":
    main()
