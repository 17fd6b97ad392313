"""One create, cut by cut, as a table: its stores and the names by the Rust, the check and the mender by the replayer."""
import random
import tempfile

import places
from arena_model import BLOCK
from asks import Asks, given_arena
from beside import output, side
from births import ENDED
from compared import birth_of, recorded, rust_says
from creates import ONE_GROUP, ROOT, Create, History, filled
from images import grown
from replay_model import FOLDER, GROUP
from scripts import packed
from seen import Image, traces

HEAD = ("stores", "the last one", "traces", "names that open sees", "check", "mend")
# With more names than these only their number is shown.
SHOWN_NAMES = 9


def store_words(line, birth):
    """The last store, by the Rust's line of the cut, as a reader would call it."""
    words = line.split(" ")[2:-2]
    if not words:
        return ""
    kind, file, place, length = words[0], words[1], int(words[2]), int(words[3])
    if kind == "length":
        return f"metadata file's length {length}"
    if kind == "make":
        return "file made"
    if file == birth.file.hex():
        return f"its slot {place // length}"
    if file == birth.parent_file[1].hex():
        return f"the folder's slot {place // length}"
    if place == 0:
        return "superblock"
    id = place // 128
    return f"map {id // GROUP}" if id % GROUP == 1 else f"record {id}"


def paths(lines):
    """The names by the Rust's lines, each as its path from root."""
    rows = [line.split(" ")[1:4] for line in lines if line.startswith("name ")]
    way = {int(id): (int(folder), bytes.fromhex(name).decode()) for folder, name, id in rows}

    def path(id):
        up, name = way[id]
        return name if up == ROOT else f"{path(up)}/{name}"

    return sorted(path(id) for id in way)


def by_cut(lines):
    """The Rust's lines of each cut."""
    cuts = []
    for line in lines:
        if line.startswith("cut "):
            cuts.append([])
        cuts[-1].append(line)
    return cuts


def answers(asks):
    """What the replayer answers to check and mend on one cut."""
    data = given_arena(None, b"".join(asks.blocks)) + b"".join(packed(name, args) for name, args, _ in asks.calls)
    with tempfile.NamedTemporaryFile() as script:
        script.write(data)
        script.flush()
        lines = output(side(), script.name)
    said = {line.split(" ")[0]: line.split(" ")[1:4] for line in lines}
    check, mend = said["check"], said["mend"]
    return "pass" if check[0] == "pass" else f"rule {check[2]}", "done" if mend[0] == "ok" else mend[1]


def rows(create):
    birth, (_, cuts) = birth_of(create), recorded(create)
    for n, (blocks, told) in enumerate(zip(cuts, by_cut(rust_says(create)))):
        names = paths(told)
        shown = ", ".join(names) if len(names) <= SHOWN_NAMES else f"{len(names)}"
        if len(names) > SHOWN_NAMES and birth.phases[n] == ENDED:
            shown += f", {birth.name.decode()} among them"
        found = sorted(traces(birth.before, birth, Image(blocks)))
        yield str(n), store_words(told[0], birth), ", ".join(found), shown, *answers(Asks(birth, n, blocks))


def table(title, create):
    print(title + "\n")
    print("| " + " | ".join(HEAD) + " |")
    print("|" + "---|" * len(HEAD))
    for row in rows(create):
        print("| " + " | ".join(row) + " |")
    print()


def picture(seed):
    dice = random.Random(seed)
    arena = grown().arena_bytes()
    below = History(dice, len(arena) // BLOCK, arena)
    folder = below.image().names([ROOT])[ROOT, b"B"]
    table("A folder `new` is created in the folder `B`.", Create(below, "picture", FOLDER, folder, b"new"))
    full = filled(ONE_GROUP, 1)
    brings = History(dice, len(full) // BLOCK, full)
    table("The same in root where all ids are used: a group comes.", Create(brings, "picture", FOLDER, ROOT, b"new"))
