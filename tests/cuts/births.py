"""Order 12's table, from the order's text and its readings: the stores of a create in 000's order, and what each cut leaves. It reads the arena
before the create, and nothing of the model's create."""
import collections
import struct

import places
from arena_model import META
from replay_model import FOLDER, GROUP, SLOT, Record
from seen import GROUP_BYTES, MAP, map_at

# A store: make, length or write; a length's place is 0, and a make has neither place nor length.
Store = collections.namedtuple("Store", "kind file place length data")
Column = collections.namedtuple("Column", "phase traces rule mends")

BEGUN, LENGTHENED, FILED, SLOTTED, COUNTED, MAPPED, RECORDED, ENDED = PHASES = (
    "begun", "lengthened", "filed", "slotted", "counted", "mapped", "recorded", "ended")
NEW_MAP = b"\xfd" + b"\xff" * 127
WRONG_FS = 18


def write(file, place, data):
    return Store("write", file, place, len(data), data)


def slot(id, name, kind):
    return struct.pack("<I256sI", id, name, kind)


class Birth:
    """What a create is about: the new node's name, id and record, its folder and that one's record, superblock and maps afterwards."""

    def __init__(self, before, up, name, kind, mode, time, file):
        self.before, self.up, self.name, self.kind, self.file = before, up, name, kind, file
        self.grows = not any(before.maps)
        self.groups = before.groups + self.grows
        maps = before.maps + (NEW_MAP if self.grows else b"")
        self.id = next(id for id in range(8 * len(maps)) if maps[id // 8] >> id % 8 & 1)
        self.maps = bytearray(maps)
        self.maps[self.id // 8] &= ~(1 << self.id % 8)
        unused = before.unused + (GROUP - 1) * self.grows - 1
        self.superblock = struct.pack("<4I", before.magic, GROUP * self.groups, unused, self.groups)
        self.folder = kind == FOLDER
        links, blocks = (2, 2) if self.folder else (1, 0)
        self.child = Record.LAYOUT.pack(0, kind, mode, links, blocks, 0, 0, 0, *time, *time, *time, file, bytes(16))
        parent = before.record(up)
        self.parent_file, self.slots = (1, parent.file), parent.blocks
        parent.blocks += 1
        parent.links += self.folder
        self.new_parent = parent.bytes()
        self.stores = [store for _, store in self.steps()]
        self.phases = [BEGUN] + [phase for phase, _ in self.steps()]

    def steps(self):
        """The stores in their order, each with the phase that it brings."""
        file = (1, self.file)
        if self.grows:
            yield LENGTHENED, Store("length", META, 0, GROUP_BYTES * self.groups, b"")
        yield FILED, Store("make", file, 0, 0, b"")
        if self.folder:
            yield FILED, write(file, 0, slot(self.id, b".", FOLDER))
            yield FILED, write(file, SLOT, slot(self.up, b"..", FOLDER))
        yield SLOTTED, write(self.parent_file, SLOT * self.slots, slot(self.id, self.name, self.kind))
        yield COUNTED, write(META, 0, self.superblock)
        for g in range(self.groups):
            phase = MAPPED if g >= self.id // GROUP else COUNTED
            yield phase, write(META, map_at(g), bytes(self.maps[MAP * g:MAP * g + MAP]))
        yield RECORDED, write(META, 128 * self.id, self.child)
        yield ENDED, write(META, 128 * self.up, self.new_parent)

    def old_record(self):
        return self.before.record(self.id)

    def claims_file(self):
        """A removed node had this id and this file name: its old record passes as the new one."""
        old = self.old_record()
        return old.file == self.file and 1 <= old.type <= 4

    def same_record(self):
        """Its old record is the new one, byte by byte."""
        return self.before.stored(self.id) == self.child

    def traces_of(self, phase):
        """The traces of a phase."""
        metadata = {"longer metadata"} if self.grows else set()
        group = {"used id", "zero map"} if self.grows else set()
        return {
            BEGUN: set(),
            LENGTHENED: metadata,
            FILED: {"stray file"} | metadata,
            SLOTTED: {"stray file", "longer folder"} | metadata,
            COUNTED: {"stray file", "longer folder", "wrong unused"} | group,
            MAPPED: {"nameless record" if self.same_record() else "stray file", "longer folder", "used id"},
            RECORDED: {"nameless record", "longer folder", "used id"},
            ENDED: set(),
        }[phase]

    def failing(self, phase):
        """The rule that the checker names with no node open; 0 for a pass. Before and after it is 7 where a removed node was held."""
        early = 3 if self.grows else 5
        quiet = 7 if self.before.nameless else 0
        return {BEGUN: quiet, LENGTHENED: 3, FILED: early, SLOTTED: early, COUNTED: 3, MAPPED: 6 if self.claims_file() else 5, RECORDED: 6,
                ENDED: quiet}[phase]

    def column(self, n):
        """What the table says of the cut after n stores."""
        phase = self.phases[n]
        between = phase not in (BEGUN, ENDED)
        return Column(phase, self.traces_of(phase), self.failing(phase), WRONG_FS if between else 0)
