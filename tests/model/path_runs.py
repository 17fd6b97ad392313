#!/usr/bin/env python3
"""Paths of folders, asked between random creates, moves and removals: call scripts (docs/REPLAY.md), the model's lines, and a replayer's beside them.

    path_runs.py [--seed N] [--scripts N] [--deep] [-- REPLAYER..]      compares; REPLAYER is tests/replay-host unless it is given
    path_runs.py --write FOLDER [..]                                     NAME.script and NAME.expected there, for tests/vectors

Trees grow by rows of folders of up to 70, one in the other; four owners ask for paths of folders, files and removed folders, of handles that are another's
or closed, into outputs of the path's length, one byte more and less, none and all.

In one of three scripts nothing is damaged: there each path is held against what the calls before it have named, and its text, walked, opens the same folder;
the pair passes. In the others one to three damages at a time, on the way of a folder, are poked in and taken back after a few paths: of slots (`..`, the
slot with the name, those before and after it), of records and rows, of file lengths, of the superblock and maps; and parents that go round, all named.

--deep: arenas of 4,096 blocks, few scripts: a row of 1,252 folders, with paths around each 32nd; and 32 names of 255 bytes, which fill the output.
"""
import argparse
import collections
import pathlib
import random
import subprocess
import sys

HERE = pathlib.Path(__file__).resolve().parent
sys.path.insert(0, str(HERE.parent / "beside_rust"))
from arena_model import META
from scripts import FIELDS, FILE, FOLDER, SYMLINK, Builder, model

SLOT, OUTPUT, OWNERS = model.SLOT, model.OUTPUT, tuple(model.OWNERS)
# How often each step is taken.
STEPS = {"path": 40, "row": 6, "create": 10, "find": 12, "move": 12, "remove": 8, "close": 6, "other": 4, "sync": 2, "damage": 25}
# What a slot may have as its name: not ended, no UTF-8, and names that no call stores.
BAD_NAMES = (b"n" * 256, b"\xff", b"a\xc3\0", b"n" * 255 + b"\xe4", b"", b".", b"..", b"a/b", b"/", b"n" * 255, "ä".encode() * 127)


class Run(Builder):
    """A script as it grows, and its lines by the model."""

    def __init__(self, dice, blocks, clean):
        super().__init__(blocks)
        self.dice, self.clean, self.lines = dice, clean, []
        # the live handles with their owners, closed ones, and the name that each folder was given, with the folder that it is in
        self.held, self.closed, self.named = {}, [(3, 77)], {}
        self.format()
        for self.who in OWNERS:
            self.held[self.root()] = self.who

    def call(self, name, *args, words=""):
        made = super().call(name, *args, words=words)
        self.lines.append(self.line)
        return made

    def done(self):
        return " ok" in self.line

    # what is there

    def row(self, h):
        return self.at.table.rows[self.at.table.holds[h[0]][0]]

    def folders(self):
        return [h for h in self.held if self.row(h).rec.type == FOLDER]

    def slots(self, rec):
        """Each slot of a folder as its node and its name."""
        data = self.at.files.span((1, rec.file), 0, SLOT * rec.blocks)
        return [(model.u32(data, k), data[k + 4:k + 260].partition(b"\0")[0]) for k in range(0, len(data), SLOT)]

    def chosen(self, handles):
        """One of these handles, mostly one of the newest, and its owner asks."""
        h = self.dice.choice(handles[-3:] if self.dice.randrange(3) else handles)
        self.who = self.held[h]
        return h

    def name(self):
        dice = self.dice
        kind = dice.randrange(12)
        return dice.choice((b"glyphs", b"A", b"b", "ß".encode(), b"...", b"x" * 100)) if kind < 6 else b"%d" % dice.randrange(40) if kind < 11 else b"n" * dice.choice((1, 254, 255))

    # steps

    def room_for(self, who):
        """Who asks next has a hold left."""
        own = [h for h, owner in self.held.items() if owner == who]
        if len(own) == model.OWN_HOLDS:
            self.close_one(self.dice.choice(own))

    def close_one(self, h):
        self.who = self.held.pop(h)
        self.close(h)
        self.closed.append(h)

    def keep(self, h):
        if h:
            self.held[h] = self.who
        return h

    def create_some(self, kind=FOLDER):
        above = self.chosen(self.folders())
        self.room_for(self.who)
        if above in self.held:
            self.made(above, self.name(), kind)

    def made(self, above, name, kind=FOLDER):
        self.who = self.held[above]
        made = self.keep(self.create(above, name, kind))
        if made and kind == FOLDER:
            self.named[self.row(made).id] = self.row(above).id, name
        return made

    def row_of_folders(self):
        """One folder in the other; only the last one stays open."""
        at = self.chosen(self.folders())
        for _ in range(self.dice.choice((5, 31, 32, 33, 64, 70))):
            if sum(owner == self.held[at] for owner in self.held.values()) == model.OWN_HOLDS:
                self.room_for(self.held[at])
            if at not in self.held:
                return
            made = self.made(at, self.name())
            if not made:
                return
            if self.dice.randrange(8):
                self.close_one(at)
            at = made

    def find_some(self):
        above = self.chosen(self.folders())
        self.room_for(self.who)
        if above in self.held:
            self.who = self.held[above]
            self.keep(self.find(above, self.dice.choice(self.slots(self.row(above).rec))[1]))

    def move_some(self):
        row = self.chosen(self.folders())
        to = self.dice.choice([h for h in self.folders() if self.held[h] == self.who])
        id, old = self.dice.choice(self.slots(self.row(row).rec))
        new = self.dice.choice((old, self.name()))
        self.move(row, old, to, new)
        if self.done() and id in self.named:
            self.named[id] = self.row(to).id, new

    def remove_some(self):
        row = self.chosen(self.folders())
        self.dice.choice((self.remove_folder, self.remove_folder, self.remove_file))(row, self.dice.choice(self.slots(self.row(row).rec))[1])

    def other_path(self):
        """Of another's handle, of one that is closed, for nobody."""
        h = self.dice.choice((*self.held, self.dice.choice(self.closed)))
        self.who = self.dice.randrange(6)
        self.path(h)

    def path_some(self):
        h = self.chosen(list(self.held))
        self.path(h)
        if self.clean:
            self.right(h)
        if not self.done():
            return
        size = int(self.line.split(" ")[2])
        for room in self.dice.sample((size, size - 1, size + 1, 0, self.dice.randrange(size + 1)), 2):
            self.path(h, min(room, OUTPUT))
            assert self.done() == (size <= room), self.line

    def right(self, h):
        """The answer is the path of the names that were given, and leads back."""
        row, names = self.row(h), []
        if row.rec.type != FOLDER or row.rec.links == 0:
            assert self.line.split(" ")[2] == ("8" if row.rec.type == FOLDER else "7"), self.line
            return
        at = row.id
        while at != 2:
            at, name = self.named[at]
            names.append(b"/" + name)
        path = b"".join(reversed(names)) or b"/"
        want = f"path ok {len(path)}{model.output_sum(path)} " if len(path) <= OUTPUT else f"path no 20{model.output_sum(b'')} "
        assert self.line.startswith(want), (self.line, path)
        if self.done() and not self.at.table.full(self.who):
            said, back = self.line, self.walk(h, path)
            assert self.row(back) is self.row(h), (self.line, path)
            self.close(back)
            self.line = said

    # damages

    def way(self, h):
        """The rows of the folders from this one up to root, as long as there are names."""
        step, at, way = model.Step(self.at.files, self.at.table), self.row(h), []
        while at.id != 2 and len(way) < 200:
            way.append(at)
            above = model.u32(step.slot(at, 1), 0)
            at = model.Row(above, 0, step.record(above))
        return way + [at]

    def poked(self, files, table):
        """Arena and table become these."""
        for k, (old, new) in enumerate(zip(list(self.at.files.blocks), files.blocks)):
            if old != new:
                self.poke_block(k, old, new)
        self.at.is_sound()
        if b"".join(table.parts()) != self.at.table_bytes():
            self.table(b"".join(table.parts()), "another table")

    def damage_some(self):
        """Some damages on the way of a folder; then paths, and all is as it was."""
        h = self.chosen(self.folders())
        if self.row(h).rec.links == 0:
            return
        before, way = (self.at.files, self.at.table), self.way(h)
        files, table = model.Files(before[0].blocks.copy()), before[1].copy()
        for _ in range(self.dice.choice((1, 1, 1, 2, 3))):
            self.damage(files, table, way)
        self.poked(files, table)
        if self.at.table is None:
            self.path(h)
        for h in [h, *self.dice.sample(list(self.held), min(4, len(self.held)))] if self.at.table else []:
            self.who = self.held[h]
            self.path(h, self.dice.choice((OUTPUT, OUTPUT, OUTPUT, 4, 0)))
        if not self.dice.randrange(6):
            self.check()
        self.at.is_sound()
        if self.at.table is None:
            self.table(b"".join(before[1].parts()), "the table")
        self.poked(*before)

    def damage(self, files, table, way):
        dice, n = self.dice, self.dice.randrange(len(way))
        at, above = way[n], way[min(n + 1, len(way) - 1)]

        def slot(row, k, id=None, name=None, kind=None):
            for place, part in ((0, id), (260, kind)):
                if part is not None:
                    files.put((1, row.rec.file), SLOT * k + place, part.to_bytes(4, "little"))
            if name is not None:
                files.put((1, row.rec.file), SLOT * k + 4, name[:256].ljust(256, b"\0"))

        def field():
            name = dice.choice(("type", "blocks", "blocks", "links", "file", "id"))
            values = {"type": (0, 1, 3, 5, 2 ** 32 - 1), "blocks": (0, 1, 2, 3, at.rec.blocks - 1, at.rec.blocks + 1, 2 ** 32 - 1), "links": (0, 1, 65535),
                      "file": (b"nobody's own one", dice.choice(way).rec.file), "id": (1, 3, 1024, 5000, dice.choice(way).id)}
            value = dice.choice(values[name])
            row = table.row_of(at.id)
            if row and dice.randrange(5):
                setattr(row if name == "id" else row.rec, name, value)
            elif name != "id":
                place, size = FIELDS[name]
                files.put(META, 128 * at.id + place, value if name == "file" else value.to_bytes(size, "little"))

        def ids():
            return dice.choice((0, 1, 2, at.id, above.id, dice.choice(way).id, dice.choice(way).id, dice.randrange(40), 1025, 4096, 2 ** 32 - 1))

        def up():
            dice.choice((lambda: slot(at, 1, id=ids()), lambda: slot(at, 1, id=ids()), lambda: slot(at, 1, kind=dice.choice((0, 1, 4, 5))),
                         lambda: slot(at, 1, name=dice.choice(BAD_NAMES))))()

        def around():
            """A folder above has this one as its parent, and has its name there: instead of this one's child, or a second time."""
            top = dice.choice(way[n:-1] or [at])
            slot(top, 1, id=at.id)
            if at.rec.blocks > 2:
                slot(at, dice.randrange(2, at.rec.blocks), id=top.id)

        def naming():
            """Slots of the folder above: that of the name, one before it, one after it."""
            later = [id for id, _ in self.slots(above.rec)][2:]
            if not later:
                return
            k = 2 + (later.index(at.id) if at.id in later and dice.randrange(3) else dice.randrange(len(later)))
            dice.choice((lambda: slot(above, k, id=dice.choice((at.id, ids()))), lambda: slot(above, k, kind=dice.choice((0, 1, 4, 5, 2 ** 31))),
                         lambda: slot(above, k, name=dice.choice(BAD_NAMES)), lambda: slot(above, k, id=at.id, name=dice.choice(BAD_NAMES))))()

        def length():
            file = 1, dice.choice((at, above)).rec.file
            if files.place(1, file) is not None:
                files.cut(file, max(0, files.length(file) + dice.choice((-SLOT, -1, 1, -SLOT - 1, -2000, 1000))))

        def maps():
            dice.choice((lambda: files.put(META, 12, bytes([dice.choice((0, 2, 5))])), lambda: files.put(META, 0, b"\0"),
                         lambda: files.put(META, 128 + at.id // 8, bytes([255]))))()

        try:
            dice.choice((field, field, up, up, around, naming, naming, naming, length, maps))()
        except model.Refused:
            # no block is left for it, or another damage took the file
            pass

    # the whole

    def step(self):
        kind, = self.dice.choices(tuple(STEPS), STEPS.values())
        if kind == "damage" and self.clean:
            kind = "path"
        {"path": self.path_some, "row": self.row_of_folders, "create": lambda: self.create_some(self.dice.choice((FOLDER, FOLDER, FILE, SYMLINK))),
         "find": self.find_some, "move": self.move_some, "remove": self.remove_some, "close": lambda: self.close_one(self.chosen(list(self.held))),
         "other": self.other_path, "sync": lambda: self.call("sync"), "damage": self.damage_some}[kind]()
        if self.clean and not self.dice.randrange(6):
            self.check()
            assert " pass " in self.line, self.line
        for who in OWNERS:
            if not any(owner == who and self.row(h).rec.links for h, owner in self.held.items() if h in self.folders()):
                self.who = who
                self.room_for(who)
                self.who = who
                self.keep(self.root())

    def whole(self, steps):
        for _ in range(steps):
            if len(self.data) > 900_000:
                break
            self.step()
        return self


class Deep(Run):
    """One folder in the other as far as they go, and paths around each 32nd."""

    def whole(self, long):
        self.who = 1
        at = next(iter(self.held))
        names = [b"n" * 255] * 33 if long else [bytes([97 + self.dice.randrange(26)]) for _ in range(1260)]
        for n, name in enumerate(names, 1):
            made = self.made(at, name)
            if not made:
                break
            if n > 1:
                self.close_one(at)
            at = made
            if long or n % 32 in (0, 1, 31) or not self.dice.randrange(40):
                self.path(at)
                self.right(at)
        self.path_some()
        if not self.clean:
            for _ in range(30):
                self.damage_some()
        return self


# ---------------------------------------------------------------- the scripts

def runs(seed, scripts, deep):
    for n in range(scripts):
        dice = random.Random(f"paths {seed} {n} {deep}")
        if deep:
            yield f"deep-{seed}-{n}", Deep(dice, 4096 if n % 3 != 2 else 160, n % 3 == 0).whole(n % 3 == 2)
        else:
            yield f"paths-{seed}-{n}", Run(dice, dice.choice((40, 64, 128, 256, 400)), n % 3 == 0).whole(120)


# ---------------------------------------------------------------- beside a replayer

def compared(replayer, made):
    lines, wrong, answers = 0, 0, collections.Counter()
    for name, run in made:
        got = subprocess.run(replayer, input=bytes(run.data), stdout=subprocess.PIPE, check=True).stdout.decode().splitlines()
        calls = [told for told in run.words if told.split(" ")[0] in model.NAMES]
        pairs = [(words, said, line) for words, said, line in zip(calls, run.lines, got) if said != line]
        if pairs or len(got) != len(run.lines):
            wrong += 1
            words, said, line = pairs[0] if pairs else ("the end", len(run.lines), len(got))
            print(f"{name}: {words}\n    model    {said}\n    replayer {line}", flush=True)
        lines += len(got)
        answers.update("ok" if " ok" in said else said.split(" ")[2] for said in run.lines if said.startswith("path "))
    print(f"lines {lines}, paths {sum(answers.values())}, scripts that differ {wrong}")
    print("answers: " + ", ".join(f"{answer} {n}" for answer, n in sorted(answers.items())))
    return wrong > 0


def written(folder, made):
    folder.mkdir(parents=True, exist_ok=True)
    for name, run in made:
        (folder / f"{name}.script").write_bytes(run.data)
        (folder / f"{name}.expected").write_text("".join(line + "\n" for line in run.lines))


def main():
    words = argparse.ArgumentParser(description=__doc__, formatter_class=argparse.RawDescriptionHelpFormatter)
    words.add_argument("--seed", type=int, default=1)
    words.add_argument("--scripts", type=int, default=300)
    words.add_argument("--deep", action="store_true")
    words.add_argument("--write", type=pathlib.Path)
    given = sys.argv[1:] + ["--"]
    own = given.index("--")
    said, replayer = words.parse_args(given[:own]), given[own + 1:-1]
    made = runs(said.seed, said.scripts, said.deep)
    if said.write:
        return written(said.write, made)
    return compared(replayer or [str(HERE.parent / "replay-host")], made)


if __name__ == "__main__":
    sys.exit(main())
