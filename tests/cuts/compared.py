"""Every cut of one create, compared in three places with what the table says of it."""
import itertools
import subprocess

import places
from arena_model import META
from asks import Asks, Finish, differing, metadata
from beside import OUT
from births import ENDED, Birth, Store
from replay_model import Files, do_create, total
from seen import Image, outside, traces


def birth_of(create):
    return Birth(create.history.image(), create.up, create.name, create.kind, create.mode, create.time, create.file)


# ---------------------------------------------------------------- the model's create, store by store

class Recorded(Files):
    """Files that keep each store and what it left."""

    def __init__(self, blocks):
        super().__init__(blocks)
        self.stores, self.cuts = [], [list(blocks)]

    def keep(self, kind, file, place, length, data):
        self.stores.append(Store(kind, file, place, length, data))
        self.cuts.append(list(self.blocks))

    def put(self, file, pos, data):
        super().put(file, pos, data)
        self.keep("write", file, pos, len(data), bytes(data))

    def cut(self, file, size):
        super().cut(file, size)
        self.keep("length", file, 0, size, b"")

    def make(self, file):
        super().make(file)
        self.keep("make", file, 0, 0, b"")


def recorded(create):
    """The stores of the model's create, and the arena's blocks after each number of them."""
    step = create.step()
    step.files = Recorded(step.files.blocks)
    do_create(step, *create.args())
    return step.files.stores, step.files.cuts


# ---------------------------------------------------------------- comparisons

class Differences:
    def __init__(self):
        self.found = []

    def report(self, label, where, what):
        self.found.append(f"{label}: {where}: {what}")

    def same(self, label, where, what, got, want):
        if got != want:
            self.report(label, where, f"{what}: got {got}, wanted {want}")


def by_bytes(differences, label, birth, n, cut):
    """What is there in the cut's arena, beside the table's column."""
    column, ended, before = birth.column(n), birth.phases[n] == ENDED, birth.before

    def same(what, got, want):
        differences.same(label, "model", what, got, want)

    same("traces", sorted(traces(before, birth, cut)), sorted(column.traces))
    same("what else differs", list(outside(before, birth, cut)), [])
    names = before.names(before.folders)
    if ended:
        names[birth.up, birth.name] = birth.id
    same("names", cut.names(before.folders), names)
    for id in before.nodes:
        same(f"record {id}", cut.stored(id), birth.new_parent if ended and id == birth.up else before.stored(id))
        same(f"node {id}", cut.is_node(id), True)
    if ended:
        same("the new record", cut.stored(birth.id), birth.child)
        same("the new file", cut.there((1, birth.file)), True)


def in_model(differences, label, create, birth):
    """Each cut by the model: its stores, its bytes and the lines of its calls. The cuts' blocks, and what is asked
    of them, labelled."""
    stores, cuts = recorded(create)
    for n, (got, want) in enumerate(itertools.zip_longest(stores, birth.stores), 1):
        differences.same(label, "model", f"store {n}", got, want)
    if stores != birth.stores:
        return cuts, []
    asks = []
    for n, blocks in enumerate(cuts):
        by_bytes(differences, f"{label} cut {n}", birth, n, Image(blocks))
        asks.append((f"{label} cut {n}", Asks(birth, n, blocks)))
    asks.append((f"{label} finished", Finish(birth, create, cuts)))
    for name, asked in asks:
        wrong = differing(asked, asked.model_lines())
        if wrong:
            differences.report(name, "model", wrong)
    return cuts, asks


def rust_lines(birth, cuts):
    """What `driver cuts` is to say."""
    for n, blocks in enumerate(cuts):
        store = birth.stores[n - 1] if n else None
        file = store and ("metadata" if store.file == META else store.file[1].hex())
        words = f" {store.kind} {file} {store.place} {store.length}" if store else ""
        yield f"cut {n}{words} a {total(blocks)}"
        yield from sorted(rust_names(birth, n))
    yield f"whole {len(cuts) - 1}"


def rust_names(birth, n):
    before, ended = birth.before, birth.phases[n] == ENDED
    for folder in before.folders:
        if folder in before.nameless:
            continue
        for name, id in before.later_names(folder):
            yield f"name {folder} {name.hex()} {metadata(id, birth.new_parent if ended and id == birth.up else before.stored(id))}"
    if ended:
        yield f"name {birth.up} {birth.name.hex()} {metadata(birth.id, birth.child)}"
    yield f"new {metadata(birth.id, birth.child)}" if ended else "new none"


def rust_says(create):
    """The lines of `driver cuts`: of each cut its own line, and then its names, sorted; the last is the number of stores."""
    said = subprocess.run([OUT / "driver", "cuts"], input=create.script(), capture_output=True).stdout.decode().splitlines()
    lines, names = [], []
    for line in said:
        if line.startswith(("name ", "new ")):
            names.append(line)
        else:
            lines, names = lines + sorted(names) + [line], []
    return lines + sorted(names)


def in_rust(differences, label, create, birth, cuts):
    """The Rust's own stores, stopped after each number of them, and its own open and find of what is left. How many lines it said. Where the model's
    stores are not as many as the table's, which `in_model` has reported, there is nothing to compare with."""
    if len(cuts) != len(birth.stores) + 1:
        return 0
    got, want = rust_says(create), list(rust_lines(birth, cuts))
    wrong = next((pair for pair in itertools.zip_longest(got, want, fillvalue="nothing") if pair[0] != pair[1]), None)
    if wrong:
        differences.report(label, "Rust", "got {}, wanted {}".format(*wrong))
    return len(got)
