"""Creates to be cut: images that calls made, each with a create that is about to be done, just after a sync on a pair that passes."""
import places
from arena_model import BLOCK, PAYLOAD
from replay_model import FOLDER, SYMLINK, Model, Refused, Step, do_close, do_create, do_root
from scripts import Builder, packed
from seen import Image

FILE = 1
ROOT = 2
# The first folder of a filled image.
FIRST_FOLDER = 3
WHO = 1
MODE = 420
# More holds than these are not kept open by a history; a way down to a folder takes two more.
KEPT = 3
NAMES = [b"a", b"b", b"glyph", b"Regular", "\u00e4\u03b2".encode(), b"x" * 255, b"with space", b"c", b"d", b"..."]
# Where groups are filled: the nodes of one folder of root, itself among them, and blocks enough for one group's nodes, and for two.
IN_FOLDER = 100
ONE_GROUP, TWO_GROUPS = 1900, 3800


class History:
    """An image as calls make it; the script grows along, and the model follows."""

    def __init__(self, dice, blocks, arena=None):
        self.dice, self.calls = dice, Builder(blocks)
        self.made, self.kept, self.gone = 0, [], []
        if arena is None:
            self.calls.format()
        else:
            self.calls.raw(packed("arena", (arena,)), "an arena")
            self.calls.at.set_arena(arena)
            self.calls.open()
        self.root = self.calls.root()

    def image(self):
        return Image(self.calls.at.files.blocks)

    # the way to a folder

    def enter(self, folder):
        """A handle of this folder, by finds from root."""
        at = self.root
        for name in self.image().way(folder):
            below = self.calls.find(at, name)
            self.leave(at)
            at = below
        return at

    def leave(self, handle):
        if handle != self.root:
            self.calls.close(handle)

    # calls

    def fresh_file(self):
        self.made += 1
        return bytes([self.dice.randrange(256)]) * 8 + self.made.to_bytes(8, "little")

    def time(self):
        return self.dice.randrange(-9, 10 ** 9), self.dice.randrange(10 ** 9)

    def some_folder(self):
        image = self.image()
        return self.dice.choice([id for id in image.folders if id not in image.nameless])

    def some_name(self):
        """A folder, a name in it and what it names; none where there is no name."""
        image = self.image()
        names = [(folder, name, id) for folder in image.folders for name, id in image.later_names(folder)]
        return self.dice.choice(names) if names else None

    def new_node(self, kind, folder=ROOT, name=None, file=None, time=None):
        """The new node's handle, or none where the create is refused."""
        at = self.enter(folder)
        new = self.calls.call("create", at, name or self.dice.choice(NAMES), kind, MODE, time or self.time(), file or self.fresh_file())
        self.leave(at)
        return new

    def grow(self):
        new = self.new_node(self.dice.choice((FILE, FILE, FOLDER, FOLDER, SYMLINK)), self.some_folder(), file=self.some_file())
        if new is None:
            return
        if self.dice.random() < 0.4:
            self.calls.write(new, 0, b"outline" * self.dice.randrange(40))
        if self.dice.random() < 0.2 and len(self.kept) < KEPT:
            self.kept.append(new)
        else:
            self.calls.close(new)

    def some_file(self):
        return self.dice.choice(self.gone) if self.gone and self.dice.random() < 0.3 else self.fresh_file()

    def link(self):
        found = self.some_name()
        if found:
            at = self.enter(found[0])
            node = self.calls.find(at, found[1])
            to = self.enter(self.some_folder())
            self.calls.link(to, self.dice.choice(NAMES), node)
            for handle in (to, node, at):
                self.leave(handle)

    def move(self):
        found = self.some_name()
        if found:
            at, to = self.enter(found[0]), self.enter(self.some_folder())
            self.calls.move(at, found[1], to, self.dice.choice(NAMES))
            self.leave(to)
            self.leave(at)

    def remove(self, folder, name, id):
        record = self.image().record(id)
        at = self.enter(folder)
        (self.calls.remove_folder if record.type == FOLDER else self.calls.remove_file)(at, name)
        self.leave(at)
        if " ok" in self.calls.line:
            self.gone.append(record.file)

    def remove_some(self):
        found = self.some_name()
        if found:
            self.remove(*found)

    def steps(self, count):
        acts = [self.grow] * 5 + [self.link, self.move, self.remove_some, self.remove_some]
        for _ in range(count):
            self.dice.choice(acts)()

    def close_kept(self):
        for handle in self.kept:
            self.calls.close(handle)
        self.kept = []

    def arena(self):
        return self.calls.at.arena_bytes()


class Create:
    """The create: its history, and its arguments."""

    def __init__(self, history, plan, kind, folder=None, name=None, mode=None, time=None, file=None):
        dice = history.dice
        self.plan, self.history, self.kind = plan, history, kind
        self.mode = dice.randrange(2 ** 16) if mode is None else mode
        self.up = history.some_folder() if folder is None else folder
        taken = {name for name, _ in history.image().later_names(self.up)}
        self.name = name or dice.choice([n for n in NAMES + [b"new"] if n not in taken])
        self.time, self.file = time or history.time(), file or history.fresh_file()
        self.handle = history.enter(self.up)
        history.calls.call("sync")
        history.calls.check()
        self.passes = history.calls.line.startswith("check pass")

    def args(self):
        return self.handle, self.name, self.kind, self.mode, self.time, self.file

    def script(self):
        return bytes(self.history.calls.data) + packed("create", (WHO, *self.args()))

    def step(self):
        """What the model's create works on."""
        at = self.history.calls.at
        return Step(at.files, at.table, WHO)

    def begins(self):
        """The theorem's premise: the pair passes, no row is dirty, and the create is done."""
        at = self.history.calls.at
        try:
            do_create(self.step(), *self.args())
        except Refused:
            return False
        return self.passes and not any(row.dirty for row in at.table.rows if row)


# ---------------------------------------------------------------- plans: each gives a history and what is special about its create

def small(dice, kind):
    history = History(dice, dice.randrange(16, 41))
    history.steps(dice.randrange(12))
    return Create(history, "small", kind)


def roomy(dice, kind):
    history = History(dice, dice.randrange(60, 301))
    history.steps(dice.randrange(10, 40))
    return Create(history, "roomy", kind)


def nearly_full(dice, kind):
    """What the create leaves free is written full before."""
    history = History(dice, dice.randrange(24, 48))
    filler = history.new_node(FILE, name=b"filler")
    history.steps(dice.randrange(8))
    create = Create(history, "nearly full", kind)
    if filler is None or not create.begins():
        return create
    step = create.step()
    do_create(step, *create.args())
    spare = len(step.files.free())
    for block in range(spare):
        history.calls.write(filler, PAYLOAD * block, b"f" * PAYLOAD)
    return Create(history, "nearly full", kind, create.up, create.name, create.mode, create.time, create.file)


def held(dice, kind):
    """A removed node is held: with no node open the checker says 7 before and after."""
    history = History(dice, dice.randrange(24, 60))
    history.steps(dice.randrange(8))
    history.close_kept()
    node = history.new_node(dice.choice((FILE, FOLDER, SYMLINK)), name=b"held")
    if node:
        history.kept.append(node)
        history.remove(ROOT, b"held", history.image().names([ROOT])[ROOT, b"held"])
    return Create(history, "held", kind)


def same_file(dice, kind):
    """The id and the file name of a removed node, of the same kind or another."""
    history = History(dice, dice.randrange(20, 60))
    history.steps(dice.randrange(8))
    file = history.fresh_file()
    node = history.new_node(dice.choice((kind, FILE)), name=b"gone", file=file)
    if node:
        history.calls.close(node)
        history.remove(ROOT, b"gone", history.image().names([ROOT])[ROOT, b"gone"])
    return Create(history, "same file", kind, file=file)


def other_id(dice, kind):
    """The file name of one removed node, the id of another."""
    history = History(dice, dice.randrange(24, 60))
    history.steps(dice.randrange(6))
    files = [history.fresh_file(), history.fresh_file()]
    for name, file in zip((b"one", b"two"), files):
        node = history.new_node(FILE, name=name, file=file)
        if node:
            history.calls.close(node)
    for found, id in history.image().later_names(ROOT):
        if found in (b"one", b"two"):
            history.remove(ROOT, found, id)
    return Create(history, "other id", kind, file=files[1])


def same_record(dice, kind):
    """A node was held and removed, the host went down, and the mender freed the id: its record is there, links and all. Now it is made again."""
    history = History(dice, dice.randrange(20, 60))
    history.steps(dice.randrange(8))
    history.close_kept()
    file, time = history.fresh_file(), history.time()
    if history.new_node(kind, name=b"same", file=file, time=time):
        history.remove(ROOT, b"same", history.image().names([ROOT])[ROOT, b"same"])
    history.calls.open()
    history.calls.mend()
    arena = history.arena()
    mended = History(dice, len(arena) // BLOCK, arena)
    mended.made = history.made
    return Create(mended, "same record", kind, mode=MODE, time=time, file=file)


PLANS = (small, nearly_full, same_file, held, small, same_record, roomy, other_id)


# ---------------------------------------------------------------- full groups

def filled(blocks, groups):
    """An arena with all ids of so many groups in use, in folders of root. Its calls are made on one copy, which is quicker."""
    model = Model()
    model.set_arena(bytes(BLOCK * blocks))
    model.format((0, 0), (1).to_bytes(16, "big"))
    step = Step(model.files, model.table, WHO)
    root, made, folder = do_root(step), 1, None
    while step.fs()[2] or len(step.fs()[3]) < 128 * groups:
        made += 1
        kind = FOLDER if made % IN_FOLDER == 2 else FILE
        new = do_create(step, root if kind == FOLDER else folder, b"%d" % made, kind, 0, (0, 0), made.to_bytes(16, "big"))
        if kind == FOLDER:
            if folder:
                do_close(step, folder)
            folder = new
        else:
            do_close(step, new)
    return step.files.bytes()


def group_creates(dice):
    """Creates that bring a group, and creates in an image of two groups, with ids of the first and of the second."""
    full = filled(ONE_GROUP, 1)
    for kind in (FILE, FOLDER, SYMLINK):
        for up in (ROOT, FIRST_FOLDER):
            history = History(dice, len(full) // BLOCK, full)
            yield Create(history, "new group", kind, up)
    two = History(dice, len(full) // BLOCK, full)
    two.calls.close(two.new_node(FILE, name=b"second"))
    yield Create(two, "second group", dice.choice((FILE, FOLDER, SYMLINK)))
    one = History(dice, len(full) // BLOCK, full)
    one.calls.close(one.new_node(FILE, name=b"second"))
    one.remove(FIRST_FOLDER, b"3", 4)
    yield Create(one, "first of two groups", dice.choice((FILE, FOLDER, SYMLINK)))
    third = filled(TWO_GROUPS, 2)
    yield Create(History(dice, len(third) // BLOCK, third), "third group", FOLDER)


def creates(dice, count):
    """So many creates that begin as the theorem asks, the plans and kinds by turns, and after them those with more than one group."""
    for k in range(count):
        plan, kind = PLANS[k % len(PLANS)], (FILE, FOLDER, SYMLINK)[k // len(PLANS) % 3]
        create = plan(dice, kind)
        while not create.begins():
            create = plan(dice, kind)
        yield create
    for create in group_creates(dice):
        assert create.begins(), create.plan
        yield create
