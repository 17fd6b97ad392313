"""What is asked of a cut by calls, and the line that the table says of each: open, check, every name by root and find, mend. The same calls go to
the model and, as call scripts (docs/REPLAY.md), to the proved library."""
import tempfile

import places
from arena_model import BLOCK
from beside import fits, output
from births import ENDED
from creates import WHO
from replay_model import FOLDER, Model, Record, Table, total
from scripts import packed

EMPTY = total(Table().parts())
ENTRY_NOT_FOUND = 11
NO_LINKS = 7
# In a folder of more names only the first and the last of those that are no folders are found by calls.
ALL_NAMES = 30
SCRIPT_LIMIT = 1_048_576


def metadata(id, stored):
    """What the metadata call answers of a node with this stored record."""
    r = Record.read(stored)
    size = r.blocks if r.type == FOLDER else r.size
    return " ".join(map(str, (id, size, r.mode, r.type, r.blocks, *r.times, r.links, r.uid, r.gid)))


class Calls:
    """Calls on an arena, from open on: each as name, arguments and the line that is wanted, where a dash stands for any number."""

    def __init__(self, birth, blocks):
        self.birth, self.before, self.blocks, self.calls = birth, birth.before, blocks, []
        self.arena, self.stamp, self.holds = f"a {total(blocks)}", 0, 0
        self.ask("open", "ok", table=EMPTY)

    def ask(self, name, want, *args, arena=None, table="-"):
        self.calls.append((name, args, f"{name} {want} {arena or self.arena} t {table}"))

    def held(self, name, *args):
        """A call that gives a hold: the lowest free one, since they are closed in turn."""
        self.stamp += 1
        handle = (self.holds, self.stamp)
        self.ask(name, f"ok {self.holds} {self.stamp}", *args)
        self.holds += 1
        return handle

    def close(self, handle):
        self.ask("close", "ok", WHO, handle)
        self.holds -= 1

    def verdict(self, rule, ended, blocks):
        """What the checker says before the create or after it, or of a cut where a rule fails."""
        if rule:
            return f"fail rule {rule}"
        nodes, unused = len(self.before.nodes) + ended, self.before.unused
        if ended:
            unused = int.from_bytes(self.birth.superblock[8:12], "little")
        return f"pass nodes {nodes} unused {unused} free {sum(b[0] == 0 for b in blocks)}"

    def model_lines(self):
        model = Model()
        model.set_arena(b"".join(self.blocks))
        return [model.run(name, args) for name, args, _ in self.calls]


class Finish(Calls):
    """The create itself, on the arena before: it leaves the arena of the last cut."""

    keeps = False

    def __init__(self, birth, create, cuts):
        super().__init__(birth, cuts[0])
        at = self.held("root", WHO)
        for name in birth.before.way(birth.up):
            at = self.held("find", WHO, at, name)
        self.arena = f"a {total(cuts[-1])}"
        self.held("create", WHO, at, *create.args()[1:])
        self.ask("check", self.verdict(birth.failing(ENDED), True, cuts[-1]))


class Asks(Calls):
    """The calls on one cut."""

    def __init__(self, birth, n, blocks):
        super().__init__(birth, blocks)
        self.column, self.ended = birth.column(n), birth.phases[n] == ENDED
        # a mender that has something to do changes the arena
        self.keeps = self.column.rule != NO_LINKS
        self.ask("check", self.verdict(self.column.rule, self.ended, blocks), table=EMPTY)
        self.visit(self.held("root", WHO), 2)
        self.ask("open", "ok", table=EMPTY)
        self.mend()

    def mend(self):
        """18 between two stores. Before and after it is done, and changes nothing where the check passes."""
        if self.column.mends:
            self.ask("mend", f"no {self.column.mends}", table=EMPTY)
        else:
            self.ask("mend", "ok", arena="a -" if self.column.rule else None, table=EMPTY)

    def stored(self, id):
        """A node's record, by the table: the parent's is new after the last store."""
        return self.birth.new_parent if self.ended and id == self.birth.up else self.before.stored(id)

    def leads(self, at, name, id, stored):
        """The name is found, and leads to this node with this record."""
        node = self.held("find", WHO, at, name)
        self.ask("metadata", f"ok {metadata(id, stored)}", WHO, node)
        return node

    def visit(self, at, folder):
        """Every name of a folder and below; the new one where this is its folder."""
        for name, id in self.names(folder):
            node = self.leads(at, name, id, self.stored(id))
            if id in self.before.folders:
                self.visit(node, id)
            else:
                self.close(node)
        if folder == self.birth.up:
            self.new_name(at)
        self.close(at)

    def names(self, folder):
        names = self.before.later_names(folder)
        if len(names) <= ALL_NAMES:
            return names
        files = [pair for pair in names if pair[1] not in self.before.folders]
        return [pair for pair in names if pair[1] in self.before.folders or pair in (*files[:1], *files[-1:])]

    def new_name(self, at):
        birth = self.birth
        if not self.ended:
            self.ask("find", f"no {ENTRY_NOT_FOUND}", WHO, at, birth.name)
            return
        node = self.leads(at, birth.name, birth.id, birth.child)
        if birth.folder:
            self.close(self.leads(node, b"..", birth.up, self.stored(birth.up)))
        self.close(node)


def differing(asks, lines):
    """The first call whose line is not the wanted one, in words."""
    wants = [want for _, _, want in asks.calls]
    if len(wants) != len(lines):
        return f"{len(lines)} lines, wanted {len(wants)}"
    return next((f"got {got}, wanted {want}" for want, got in zip(wants, lines) if not fits(want, got)), None)


class Library:
    """Gathers the asks of many cuts into scripts and compares what the replayer prints with what is wanted."""

    def __init__(self, command, report):
        self.command, self.report = command, report
        self.scripts = self.lines = 0
        self.start()

    def start(self):
        self.data, self.due, self.arena = bytearray(), [], None

    def add(self, label, asks):
        arena = b"".join(asks.blocks)
        calls = b"".join(packed(name, args) for name, args, _ in asks.calls)
        given = given_arena(self.arena, arena)
        if self.due and len(self.data) + len(given) + len(calls) > SCRIPT_LIMIT:
            self.run()
            given = given_arena(None, arena)
        self.data += given + calls
        self.due.append((label, asks))
        self.arena = arena if asks.keeps else None

    def run(self):
        if not self.due:
            return
        with tempfile.NamedTemporaryFile() as script:
            script.write(self.data)
            script.flush()
            lines = output(self.command, script.name)
        self.scripts, self.lines = self.scripts + 1, self.lines + len(lines)
        for label, asks in self.due:
            mine, lines = lines[:len(asks.calls)], lines[len(asks.calls):]
            wrong = differing(asks, mine)
            if wrong:
                self.report(label, "library", wrong)
        if lines:
            self.report(self.due[-1][0], "library", f"{len(lines)} lines too many")
        self.start()


def pokes(old, new):
    changed = (at for at in range(0, len(new), BLOCK) if old[at:at + BLOCK] != new[at:at + BLOCK])
    other = (place for at in changed for place in range(at, at + BLOCK) if old[place] != new[place])
    return b"".join(packed("poke", (place, new[place])) for place in other)


def given_arena(old, new):
    """The commands that set an arena: pokes over the old one where that is known and as long; otherwise its bytes, or pokes over zeros where
    those are too long for a script."""
    if old is not None and len(old) == len(new):
        return pokes(old, new)
    whole, zeros = packed("arena", (new,)), bytes(len(new))
    return whole if len(whole) < SCRIPT_LIMIT else packed("arena", (zeros,)) + pokes(zeros, new)
