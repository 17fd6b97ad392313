#!/usr/bin/env python3
"""Random sequences of fallocate in all six modes, between writes, reads and resizes of a few files in a small arena: call scripts (docs/REPLAY.md), the
model's lines, and a replayer's beside them.

    range_runs.py [--seed N] [--scripts N] [--large] [-- REPLAYER..]      compares; REPLAYER is tests/replay-host unless it is given
    range_runs.py --write FOLDER [..]                                      NAME.script and NAME.expected there, for tests/vectors

Ranges begin and end at pieces of 128, at blocks of 480, at a file's size, one beside these, anywhere, and at and beyond the limits. Writes at all places
leave holes, and a third file takes what is free but for a few blocks, so that the next block is often the last one. What a range makes it makes in the
order of its pieces: each line has the sum of the whole arena.

Two of three scripts are damaged now and then: by a table whose row has another size, type, file, mark or count of links than the node, by a longer file,
by an opening without a sync before it, which leaves files that are shorter or longer than their sizes. In the others every answer is held against the
file's text, worked out as the Linux page says it, and the pair passes after each call.

--large: arenas of 4,096 blocks, which one file all but fills, in few steps; in half of them there is nothing but that file.
"""
import argparse
import collections
import pathlib
import random
import subprocess
import sys

HERE = pathlib.Path(__file__).resolve().parent
sys.path.insert(0, str(HERE.parent / "beside_rust"))
from arena_model import BLOCK, LIMIT, PAYLOAD, made as block
from scripts import FILE, FOLDER, MODES, SYMLINK, TIME, Builder, model, table_bytes

PIECE = model.PIECE
# The longest text that is worked out.
SHORT = 4_000_000
FILLER = "rest"
# Handles that are no files of their own, by the name of their node.
OTHERS = {"d": FOLDER, "l": SYMLINK}
# How often each step is taken.
STEPS = {"fallocate": 60, "write": 14, "resize": 8, "read": 5, "fill": 5, "damage": 4, "short": 3, "sync": 4, "again": 2}


class Run(Builder):
    """A script as it grows, and its lines by the model."""

    # the files that ranges are drawn in, and how far ranges go in most of them
    names, reach = ("a", "b"), 40 * PAYLOAD

    def __init__(self, dice, blocks, clean):
        super().__init__(blocks)
        self.dice, self.clean, self.lines, self.handles = dice, clean, [], {}
        self.begin(blocks)

    def begin(self, blocks):
        dice = self.dice
        self.format()
        self.handles["/"] = root = self.root()
        for name in (*self.names, FILLER):
            self.handles[name] = self.create(root, name)
        if blocks > 20:
            for name, kind in OTHERS.items():
                self.handles[name] = self.create(root, name, kind)
        for name in self.names:
            self.write(self.handles[name], dice.randrange(PAYLOAD), dice.randbytes(dice.randrange(1200)))

    def call(self, name, *args, words=""):
        made = super().call(name, *args, words=words)
        self.lines.append(self.line)
        return made

    # what is there

    def row(self, name):
        return self.at.table.rows[self.at.table.holds[self.handles[name][0]][0]]

    def size(self, name):
        return self.row(name).rec.size

    def text(self, name):
        """What the file has, where it is one, and short."""
        rec = self.row(name).rec
        return self.at.files.span((1, rec.file), 0, rec.size) if rec.type == FILE and rec.size < SHORT else None

    # numbers

    def near(self, n):
        return min(max(0, n + self.dice.choice((-1, 0, 0, 0, 1))), 2 ** 64 - 1)

    def length(self, size):
        """Of a range, or a place in a file of that size."""
        dice, size = self.dice, min(size, self.reach)
        kind = dice.randrange(20)
        if kind < 8:
            return PIECE * dice.randrange(size // PIECE + 4)
        if kind < 11:
            return self.near(PAYLOAD * dice.randrange(size // PAYLOAD + 3))
        if kind < 14:
            return self.near(dice.choice((0, size, size - size % PIECE, size + PIECE - size % PIECE)))
        if kind < 19:
            return dice.randrange(size + 700)
        return dice.choice((LIMIT, LIMIT + 1, LIMIT - LIMIT % PIECE, LIMIT - size, LIMIT - size - size % PIECE, 2 ** 63, 2 ** 64 - PIECE, 2 ** 64 - 1, 10 ** 6))

    def few(self):
        """A length of a part, rather short."""
        return self.dice.choice((0, 1, self.dice.randrange(1, 200), self.dice.randrange(1, 1000), PIECE, PAYLOAD, PAYLOAD + 1, self.dice.randrange(1, 3000)))

    def range(self, mode, size):
        """Most of those that have to be of whole pieces, and to lie in the file, are and do."""
        dice = self.dice
        if mode not in (model.COLLAPSE, model.INSERT) or not dice.randrange(8):
            start = self.length(size)
            return start, dice.choice((self.length(size), self.few(), self.near(max(0, size - start))))
        size = max(1, min(size, self.reach))
        start = PIECE * dice.randrange((size + PIECE - 1) // PIECE)
        most = (size - start - 1) // PIECE if mode == model.COLLAPSE else 12 if dice.randrange(4) else size // PIECE
        return start, PIECE * dice.randint(1 if most and dice.randrange(10) else 0, most)

    # steps

    def fallocate_some(self):
        dice = self.dice
        name = dice.choice(self.names if dice.randrange(20) else tuple(self.handles))
        mode = dice.choice((0, 1, 2, 3, 4, 4, 4, 5, 5, 5))
        start, length = self.range(mode, self.size(name))
        flags = dice.choice((0, 0, 0, 1, 2, 3, 255))
        old = self.text(name) if self.clean and max(start, length) < SHORT else None
        self.who = 1 if dice.randrange(100) else dice.randrange(6)
        self.fallocate(self.handles[name], mode, start, length, flags)
        self.who = 1
        new = self.text(name)
        if old is not None and new is not None and " ok" in self.line:
            assert new == text_after(old, mode, flags, start, length), (self.line, mode, flags, start, length, len(old))

    def write_some(self):
        name = self.dice.choice(self.names)
        self.write(self.handles[name], self.length(self.size(name)), self.dice.randbytes(min(self.few(), 2000)))

    def resize_some(self):
        name = self.dice.choice(self.names)
        self.resize(self.handles[name], self.length(self.size(name)))

    def read_some(self):
        name = self.dice.choice(self.names)
        self.read(self.handles[name], self.length(self.size(name)), self.dice.choice((0, 1, 500, 8192)))

    def fill_some(self):
        """The third file takes all blocks that are free but a few."""
        self.resize(self.handles[FILLER], 0)
        self.at.is_sound()
        most = len(self.at.files.free()) - self.dice.choice((0, 1, 1, 2, 2, 3, 4, 6, 9))
        for k in range(0, max(0, most), 17):
            self.write(self.handles[FILLER], PAYLOAD * k, bytes([170]) * (PAYLOAD * min(17, most - k)))

    def sync_all(self):
        self.call("sync")

    def again(self):
        if self.clean:
            self.sync_all()
        self.open()
        root = self.root()
        for name in self.handles:
            self.handles[name] = self.find(root, name) if name != "/" else root

    def length_of(self, name):
        file = 1, self.row(name).rec.file
        return None if self.at.files.place(1, file) is None else self.at.files.length(file)

    def short(self):
        """A file is shorter than its size, and few blocks are free: a collapse sticks where it reads short, unless a block for its holes was missing before."""
        dice, name = self.dice, self.dice.choice(self.names)
        end = self.size(name) % 10 ** 5 + self.few()
        self.fallocate(self.handles[name], model.ALLOCATE, 0, end + dice.choice((0, -end % PIECE)))
        self.fill_some()
        length = self.length_of(name)
        if length is None:
            return
        self.damaged(name, "size", length + dice.randrange(1, 1000))
        for _ in range(8):
            end = min(length, self.reach) // PIECE + dice.choice((-3, -2, -1, 0, 0, 1, 2))
            start = dice.randrange(max(1, end))
            self.fallocate(self.handles[name], dice.choice((model.COLLAPSE, model.COLLAPSE, model.INSERT)), PIECE * start, PIECE * max(0, end - start))

    def damaged(self, name, field, value):
        """The row gets another value, from outside."""
        table = self.at.table.copy()
        row = table.rows[table.holds[self.handles[name][0]][0]]
        setattr(row if field == "dirty" else row.rec, field, value)
        self.table(b"".join(table.parts()), f"{name} has {field} {value}")

    def damage(self):
        dice, name = self.dice, self.dice.choice(self.names)
        size, length = self.size(name), self.length_of(name)
        if not dice.randrange(4) and length is not None:
            longer = min(LIMIT, length + dice.choice((1, 100, PIECE, PAYLOAD, 10 ** 6, LIMIT)))
            Builder.length(self, (1, self.row(name).rec.file), longer, f"{name} is longer: {longer}")
            self.at.is_sound()
            return
        field = dice.choice(("size", "size", "size", "type", "file", "links", "dirty"))
        values = {"size": (0, 1, size + 1, size + PIECE, size + PAYLOAD, max(0, size - 1), size // 2, 2 * size, self.length(size), LIMIT, LIMIT + 1, LIMIT - PIECE, 2 ** 63, 2 ** 64 - 1),
                  "type": (0, 2, 3, 4, 5, 2 ** 32 - 1), "file": (b"nobody's own one", self.row(FILLER).rec.file), "links": (0, 65535), "dirty": (0, 1)}
        value = dice.choice(values[field])
        self.damaged(name, field, min(value, 2 ** 64 - 1) if field == "size" else value)
        for mode in dice.sample(range(len(MODES)), 4):
            start, length = self.range(mode, self.size(name))
            self.fallocate(self.handles[name], mode, start, dice.choice((length, length, 0)))

    def step(self):
        kind, = self.dice.choices(tuple(STEPS), STEPS.values())
        if kind in ("damage", "short") and self.clean:
            kind = "fallocate"
        {"fallocate": self.fallocate_some, "write": self.write_some, "resize": self.resize_some, "read": self.read_some, "fill": self.fill_some,
         "damage": self.damage, "short": self.short, "sync": self.sync_all, "again": self.again}[kind]()
        if self.clean or not self.dice.randrange(12):
            self.check()
            assert not self.clean or " pass " in self.line, self.line

    def whole(self, steps):
        while steps > 0 and all(self.handles.values()):
            self.step()
            steps -= 1
            if "/" in self.handles and not self.clean and not self.dice.randrange(25):
                self.again()
        return self


class Large(Run):
    """One file in as many blocks as there can be, written here and there; nothing else is in the arena, or a fresh image is."""
    names, reach = ("a",), 5000 * PAYLOAD

    def begin(self, blocks):
        dice = self.dice
        if self.clean:
            super().begin(blocks)
        else:
            file = b"the only one of all"[:16]
            self.poke_block(0, bytes(BLOCK), block(1, (1, file), 0))
            self.table(table_bytes([(3, 0, model.new_record(FILE, 420, TIME, file).bytes())], [(0, 1, 1)], 2))
            self.handles["a"] = 0, 1
        h = self.handles["a"]
        for k in range(30):
            self.write(h, dice.randrange(PAYLOAD * (blocks - 20)), dice.randbytes(dice.randrange(1200)))
        self.fallocate(h, model.ZERO_RANGE, PAYLOAD * dice.randrange(20), PAYLOAD * dice.randrange(blocks // 2, blocks + 1))

    def step(self):
        self.dice.choice((self.fallocate_some, self.fallocate_some, self.fallocate_some, self.write_some, self.resize_some))()


def text_after(old, mode, flags, start, length):
    """A file's text after a fallocate that is done: "inserting zeros", "collapsing", "zeroing", as fallocate(2) has it."""
    end = start + length
    if mode == model.INSERT:
        return old[:start] + bytes(length) + old[start:]
    if mode == model.COLLAPSE:
        return old[:start] + old[end:]
    if mode == model.ALLOCATE:
        return old if flags & model.KEEP_SIZE else old.ljust(end, b"\0")
    zeroed = old[:start].ljust(start, b"\0") + bytes(length) + old[end:]
    return zeroed if mode == model.ZERO_RANGE and end > len(old) else (old[:start] + bytes(length) + old[end:])[:len(old)]


# ---------------------------------------------------------------- the scripts

def runs(seed, scripts, large):
    for n in range(scripts):
        dice = random.Random(f"ranges {seed} {n} {large}")
        if large:
            yield f"large-{seed}-{n}", Large(dice, 4096, n % 2).whole(20)
        else:
            blocks = dice.choice((16, 17, 18, 20, 20, 24, 24, 28, 32, 40, 64, 128))
            yield f"ranges-{seed}-{n}", Run(dice, blocks, n % 3 == 0).whole(120)


# ---------------------------------------------------------------- beside a replayer

def compared(replayer, made):
    lines, wrong, answers = 0, 0, collections.Counter()
    for name, run in made:
        got = subprocess.run(replayer, input=bytes(run.data), stdout=subprocess.PIPE, check=True).stdout.decode().splitlines()
        calls = [told for told in run.words if told.split(" ")[0] in model.NAMES]
        pairs = [(words, said, line) for words, said, line in zip(calls, run.lines, got) if said != line]
        if pairs or len(got) != len(run.lines):
            wrong += 1
            words, said, line = pairs[0] if pairs else ("the end", len(run.lines), len(got))
            print(f"{name}: {words}\n    model    {said}\n    replayer {line}", flush=True)
        lines += len(got)
        for words, said in zip(calls, run.lines):
            if words.startswith("fallocate"):
                mode = next(word for word in words.split(" ") if word in MODES)
                answers[mode, "ok" if " ok" in said else said.split(" ")[2]] += 1
    print(f"lines {lines}, fallocates {sum(answers.values())}, scripts that differ {wrong}")
    for mode in MODES:
        print(f"  {mode}: " + ", ".join(f"{answer} {n}" for (of, answer), n in sorted(answers.items()) if of == mode))
    return wrong > 0


def written(folder, made):
    folder.mkdir(parents=True, exist_ok=True)
    for name, run in made:
        (folder / f"{name}.script").write_bytes(run.data)
        (folder / f"{name}.expected").write_text("".join(line + "\n" for line in run.lines))


def main():
    words = argparse.ArgumentParser(description=__doc__, formatter_class=argparse.RawDescriptionHelpFormatter)
    words.add_argument("--seed", type=int, default=1)
    words.add_argument("--scripts", type=int, default=300)
    words.add_argument("--large", action="store_true")
    words.add_argument("--write", type=pathlib.Path)
    given = sys.argv[1:] + ["--"]
    own = given.index("--")
    said, replayer = words.parse_args(given[:own]), given[own + 1:-1]
    made = runs(said.seed, said.scripts, said.large)
    if said.write:
        return written(said.write, made)
    return compared(replayer or [str(HERE.parent / "replay-host")], made)


if __name__ == "__main__":
    sys.exit(main())
