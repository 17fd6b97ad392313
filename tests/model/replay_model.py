#!/usr/bin/env python3
"""An independent model of document 01's calls and of document 02's orders up to 14, for tests: a call script in, the lines a right port
prints out.

Written from the documents and the readings of them in docs/DECISIONS.md, on top of arena_model.py; it shares nothing with crates/. A call
works on a copy of the arena and the table, and raises Refused at the first thing that can't be done; the copy is kept only if nothing
was raised.
    replay_model.py < SCRIPT
"""
import functools
import struct
import sys

from arena_model import BLOCK, LIMIT, META, PAYLOAD, PRIME, Arena, Refused, legal, number_at, sound, sum_of

SLOT = 264
RECORD = 112
ROWS = 34
HOLDS = 32
OWNERS = range(1, 5)
OWN_HOLDS = 8
GROUP = 1024
MAGIC = 0x2F8DBE2A
FILE = 1
FOLDER = 2
SYMLINK = 3
MOST_LINKS = 8
# From more folders than these no way up is climbed.
MOST_FOLDERS = 4096
OUTPUT = 8192
TABLE_BYTES = 4402


def u32(data, at):
    return int.from_bytes(data[at:at + 4], "little")


def utf8(name):
    try:
        name.decode()
        return True
    except UnicodeDecodeError:
        return False


# ---------------------------------------------------------------- records, slots, tables

class Record:
    """The 112 bytes of a record, by name."""
    LAYOUT = struct.Struct("<QIHHIIII6q16s16s")
    FIELDS = ("size", "type", "mode", "links", "blocks", "uid", "gid", "pad", "times", "file", "mac")
    __slots__ = FIELDS

    @classmethod
    def read(cls, data):
        r = cls()
        parts = cls.LAYOUT.unpack(data)
        (r.size, r.type, r.mode, r.links, r.blocks, r.uid, r.gid, r.pad) = parts[:8]
        r.times, r.file, r.mac = parts[8:14], parts[14], parts[15]
        return r

    def bytes(self):
        return self.LAYOUT.pack(self.size, self.type, self.mode, self.links, self.blocks, self.uid, self.gid, self.pad, *self.times,
                                self.file, self.mac)

    def copy(self):
        r = Record()
        for f in self.FIELDS:
            setattr(r, f, getattr(self, f))
        return r


def new_record(kind, mode, time, file):
    return Record.read(Record.LAYOUT.pack(0, kind, mode, 0, 0, 0, 0, 0, *time, *time, *time, file, bytes(16)))


def kind_of(record):
    """A metadata read: the type, or stuck where there is none."""
    if not 1 <= record.type <= 4:
        raise Refused(19)
    return record.type


def is_folder(record):
    """A look at the type alone: only a type above 4 sticks."""
    if record.type > 4:
        raise Refused(19)
    return record.type == FOLDER


class Row:
    __slots__ = ("id", "dirty", "rec")

    def __init__(self, id, dirty, rec):
        self.id, self.dirty, self.rec = id, dirty, rec

    def copy(self):
        return Row(self.id, self.dirty, self.rec.copy())

    def bytes(self):
        return struct.pack("<IB", self.id, self.dirty) + self.rec.bytes()


FREE_ROW = bytes(117)
# A hold: row, stamp, owner.
HOLD = struct.Struct("<IQB")


@functools.lru_cache(4096)
def carry(data):
    """REPLAY.md's sum of some bytes, and the power by which an earlier sum is carried over them."""
    return sum_of(data), pow(257, len(data), PRIME)


def total(parts):
    h = 0
    for part in parts:
        s, p = carry(part)
        h = (h * p + s) % PRIME
    return h


class Table:
    """A well-formed table: None where a row or hold is free."""

    def __init__(self):
        self.rows, self.holds, self.next = [None] * ROWS, [None] * HOLDS, 1

    def copy(self):
        t = Table()
        t.rows = [row and row.copy() for row in self.rows]
        t.holds, t.next = list(self.holds), self.next
        return t

    def parts(self):
        yield from (row.bytes() if row else FREE_ROW for row in self.rows)
        yield from (HOLD.pack(*hold) if hold else bytes(HOLD.size) for hold in self.holds)
        yield struct.pack("<Q", self.next)

    def row_of(self, id):
        return next((row for row in self.rows if row and row.id == id), None)

    def held(self, row):
        return any(hold and self.rows[hold[0]] is row for hold in self.holds)

    def own(self, who):
        """How many live holds this owner has."""
        return sum(hold is not None and hold[2] == who for hold in self.holds)

    def full(self, who):
        return self.own(who) >= OWN_HOLDS or self.next == 2 ** 64 - 1

    def hold(self, row, who):
        """The lowest free hold with the next stamp; in a well-formed table there is one where this owner has fewer than 8."""
        at, stamp = self.holds.index(None), self.next
        self.holds[at] = (self.rows.index(row), stamp, who)
        self.next += 1
        return at, stamp

    @staticmethod
    def read(data):
        """The table in these bytes, or None where it is not well formed."""
        t = Table()
        for k in range(ROWS):
            part = data[117 * k:117 * k + 117]
            if u32(part, 0):
                t.rows[k] = Row(u32(part, 0), int(part[4] != 0), Record.read(part[5:]))
            elif any(part):
                return None
        for k in range(HOLDS):
            row, stamp, owner = HOLD.unpack_from(data, 117 * ROWS + HOLD.size * k)
            if stamp:
                if row >= ROWS or t.rows[row] is None or owner not in OWNERS:
                    return None
                t.holds[k] = (row, stamp, owner)
            elif row or owner:
                return None
        t.next = int.from_bytes(data[-8:], "little")
        ids = [row.id for row in t.rows if row]
        stamps = [hold[1] for hold in t.holds if hold]
        named = {hold[0] for hold in t.holds if hold}
        ok = (len(set(ids)) == len(ids) and len(set(stamps)) == len(stamps) and len(named) == len(ids)
              and t.next >= 1 and all(stamp < t.next for stamp in stamps)
              and all(t.own(owner) <= OWN_HOLDS for owner in OWNERS))
        return t if ok else None


# ---------------------------------------------------------------- the arena's files, found faster

class Blocks(list):
    """The blocks, with the places of heads, data and free blocks kept beside them."""

    def __init__(self, blocks):
        super().__init__(blocks)
        self.at, self.free = {}, set()
        for k, b in enumerate(self):
            self.enter(k, b)

    def copy(self):
        b = Blocks(())
        b.extend(self)
        b.at, b.free = dict(self.at), set(self.free)
        return b

    @staticmethod
    def key(b):
        return b[0], (b[1], b[4:20]), number_at(b) if b[0] == 2 else None

    def enter(self, k, b):
        if b[0]:
            self.at[self.key(b)] = k
        else:
            self.free.add(k)

    def __setitem__(self, k, b):
        old = self[k]
        if old[0]:
            del self.at[self.key(old)]
        else:
            self.free.discard(k)
        super().__setitem__(k, b)
        self.enter(k, b)


class Files(Arena):
    """arena_model's files on such blocks: the same answers without a walk over the arena for each byte."""

    def __init__(self, blocks):
        self.blocks = blocks

    def place(self, tag, file, number=None):
        return self.blocks.at.get((tag, file, number))

    def free(self):
        return sorted(self.blocks.free)

    def span(self, file, pos, n):
        first = pos // PAYLOAD
        run = b"".join(self.payload(file, q) for q in range(first, (pos + n - 1) // PAYLOAD + 1))
        return run[pos - first * PAYLOAD:][:n]

    def drop(self, file):
        super().drop(file)
        self.blocks = Blocks(self.blocks)


# ---------------------------------------------------------------- one call on a copy

class Step:
    """What one call works on, and who asks."""

    def __init__(self, files, table, who=None):
        self.start, self.who = files, who
        self.files = Files(files.blocks.copy())
        self.table = table.copy()
        self.loaded = None

    # superblock and maps: the values at the call's start, changed in memory

    def fs(self):
        if self.loaded is None:
            magic, blocks, unused, groups = struct.unpack("<4I", self.start.read(META, 0, 16))
            if not 1 <= groups <= 4:
                raise Refused(19)
            maps = bytearray(b"".join(self.start.read(META, 128 * (GROUP * g + 1), 128) for g in range(groups)))
            self.loaded = [magic, blocks, unused, maps]
        return self.loaded

    def store_fs(self):
        magic, blocks, unused, maps = self.fs()
        groups = len(maps) // 128
        self.files.put(META, 0, struct.pack("<4I", magic, blocks, unused, groups))
        for g in range(groups):
            self.files.put(META, 128 * (GROUP * g + 1), bytes(maps[128 * g:128 * g + 128]))

    def alloc(self):
        fs = self.fs()
        maps = fs[3]
        byte = next((k for k, b in enumerate(maps) if b), None)
        if byte is None:
            groups = len(maps) // 128 + 1
            if groups > 4:
                raise Refused(17)
            fs[1] += GROUP
            fs[2] += GROUP - 1
            if max(fs[1], fs[2]) >= 2 ** 32:
                raise Refused(19)
            self.files.cut(META, 128 * GROUP * groups)
            maps += bytes([0xFD]) + b"\xff" * 127
            byte = 128 * (groups - 1)
        bit = (maps[byte] & -maps[byte]).bit_length() - 1
        maps[byte] &= ~(1 << bit)
        if fs[2] == 0:
            raise Refused(19)
        fs[2] -= 1
        id = 8 * byte + bit
        if id == 0 or self.table.row_of(id):
            raise Refused(19)
        return id

    def used(self, id):
        maps = self.fs()[3]
        return id // 8 < len(maps) and not maps[id // 8] >> id % 8 & 1

    def free_id(self, id):
        if not self.used(id):
            raise Refused(19)
        fs = self.fs()
        fs[3][id // 8] |= 1 << id % 8
        fs[2] += 1
        if fs[2] >= 2 ** 32:
            raise Refused(19)

    # nodes

    def add_row(self, row):
        self.table.rows[self.table.rows.index(None)] = row
        return row

    def look(self, id):
        """What an opening of this id finds: its row, or one that the table does not have."""
        if not self.used(id) or id == 0:
            raise Refused(19)
        row = self.table.row_of(id)
        if row:
            return row
        rec = Record.read(self.files.read(META, 128 * id, RECORD))
        is_folder(rec)
        self.files.length((1, rec.file))
        return Row(id, 0, rec)

    def open_node(self, id):
        """The row of this id; a row without a hold where it had none."""
        row = self.look(id)
        return row if row in self.table.rows else self.add_row(row)

    def record(self, id):
        """The record of a used node, its row's or the stored one."""
        need(self.used(id) and id, 19)
        row = self.table.row_of(id)
        return row.rec if row else Record.read(self.files.read(META, 128 * id, RECORD))

    def store(self, row):
        if row.dirty:
            self.files.put(META, 128 * row.id, row.rec.bytes())
            row.dirty = 0

    def release(self, row):
        """The last user of a row goes, unless it is held: stored, and at links 0 freed with its file."""
        if row not in self.table.rows or self.table.held(row):
            return
        self.store(row)
        if row.rec.links == 0:
            self.free_id(row.id)
            self.store_fs()
            self.files.drop((1, row.rec.file))
        self.table.rows[self.table.rows.index(row)] = None

    def links(self, row, by):
        row.rec.links += by
        row.dirty = 1
        if row.rec.links < 0:
            raise Refused(19)
        if row.rec.links > 65535:
            raise Refused(15)

    # folders

    def slot(self, row, k):
        """Slot k as it is stored; a type above 4 sticks."""
        data = self.files.read((1, row.rec.file), SLOT * k, SLOT)
        if u32(data, 260) > 4:
            raise Refused(19)
        return data

    def named_slot(self, row, k):
        """Slot k and its name, which must be ended and UTF-8."""
        data = self.slot(row, k)
        name, end, _ = data[4:260].partition(b"\0")
        if not end or not utf8(name):
            raise Refused(19)
        return data, name

    def lookup(self, row, name):
        """The first slot of that name and its place, or None."""
        for k in range(row.rec.blocks):
            data, have = self.named_slot(row, k)
            if have == (name or b"."):
                return data, k
        return None

    def put_slot(self, row, k, id, name, kind):
        self.files.put((1, row.rec.file), SLOT * k, struct.pack("<I256sI", id, name, kind))

    def append(self, row, id, name, kind):
        self.put_slot(row, row.rec.blocks, id, name, kind)
        row.rec.blocks += 1
        row.dirty = 1

    def remove(self, row, k):
        last = row.rec.blocks - 1
        if last < 0:
            raise Refused(19)
        data = self.slot(row, last)
        if k != last:
            self.files.put((1, row.rec.file), SLOT * k, data)
        self.files.cut((1, row.rec.file), SLOT * last)
        row.rec.blocks = last
        row.dirty = 1

    def remove_node(self, folder, child, k):
        self.remove(folder, k)
        self.links(child, -1)
        if child.rec.type == FOLDER:
            self.links(child, -1)
            self.links(folder, -1)
        self.release(child)

    def handle(self, h):
        """The row of a live hold of who asks."""
        hold, stamp = h
        if hold >= HOLDS or not self.table.holds[hold] or self.table.holds[hold][1:] != (stamp, self.who):
            raise Refused(4)
        return self.table.rows[self.table.holds[hold][0]]

    def full(self):
        return self.table.full(self.who)

    def hold(self, row):
        return self.table.hold(row, self.who)


def need(ok, reason):
    if not ok:
        raise Refused(reason)


def good_names(*names):
    need(all(0 not in n and utf8(n) for n in names), 5)


def new_name(name):
    """Order 4: a name that is about to be stored has no slash either."""
    good_names(name)
    need(b"/" not in name, 5)


DOTS = (b".", b"..", b"")


def folder_to_change(row):
    need(kind_of(row.rec) == FOLDER, 7)
    need(row.rec.links > 0, 8)


def do_root(s):
    need(not s.full(), 16)
    return s.hold(s.open_node(2))


def named_in(s, row, name):
    """The id that a name has in this folder."""
    need(kind_of(row.rec) == FOLDER, 7)
    need(len(name) <= 255, 10)
    need(not (name == b".." and row.rec.links == 0), 8)
    found = s.lookup(row, name)
    need(found, 11)
    return u32(found[0], 0)


def do_find(s, h, name):
    row = s.handle(h)
    good_names(name)
    id = named_in(s, row, name)
    need(not s.full(), 16)
    return s.hold(s.open_node(id))


def do_create(s, h, name, kind, mode, time, file):
    row = s.handle(h)
    new_name(name)
    need(1 <= kind <= 3, 6)
    folder_to_change(row)
    need(len(name) <= 255, 10)
    need(not s.lookup(row, name), 12)
    need(s.files.place(1, (1, file)) is None, 14)
    need(kind != FOLDER or row.rec.links < 65535, 15)
    need(not s.full(), 16)
    node = Row(s.alloc(), 1, new_record(kind, mode, time, file))
    s.files.make((1, file))
    s.add_row(node)
    if kind == FOLDER:
        node.rec.blocks = 2
        s.put_slot(node, 0, node.id, b".", FOLDER)
        s.put_slot(node, 1, row.id, b"..", FOLDER)
    s.append(row, node.id, name, kind)
    s.links(node, 1)
    if kind == FOLDER:
        s.links(node, 1)
        s.links(row, 1)
    s.store_fs()
    s.store(node)
    s.store(row)
    return s.hold(node)


def do_link(s, h, name, other):
    row, child = s.handle(h), s.handle(other)
    new_name(name)
    folder_to_change(row)
    need(len(name) <= 255, 10)
    need(not s.lookup(row, name), 12)
    need(kind_of(child.rec) != FOLDER, 9)
    need(child.rec.links < 65535, 15)
    s.append(row, child.id, name, child.rec.type)
    s.links(child, 1)
    s.store(child)
    s.store(row)
    return ()


def removed(s, h, name, folder):
    """Order 9: 000's unlink of a folder, or of what is none."""
    row = s.handle(h)
    good_names(name)
    folder_to_change(row)
    need(name not in DOTS, 9)
    need(len(name) <= 255, 10)
    found = s.lookup(row, name)
    need(found, 11)
    child = s.open_node(u32(found[0], 0))
    if folder:
        need(is_folder(child.rec), 7)
        need(child.rec.blocks >= 2, 19)
        need(child.rec.blocks == 2, 13)
    else:
        need(not is_folder(child.rec), 9)
    s.remove_node(row, child, found[1])
    s.store(row)
    return ()


def do_remove_file(s, h, name):
    return removed(s, h, name, False)


def do_remove_folder(s, h, name):
    return removed(s, h, name, True)


def climb(s, target, id):
    """Order 2: 6 where the way from the target up to node 2 meets that node. It opens nothing: a record is the row's or the stored one."""
    at, rec, climbed = target.id, target.rec, 0
    while at not in (2, id):
        need(rec.type == FOLDER and climbed < MOST_FOLDERS, 19)
        at, climbed = u32(s.slot(Row(at, 0, rec), 1), 0), climbed + 1
        if at not in (2, id):
            rec = s.record(at)
    need(at != id, 6)


def not_below(s, row, target, moved):
    """The moved node's type says whether there is a climb, so a type above 4 sticks here, before any step."""
    if row is not target and is_folder(moved.rec):
        climb(s, target, moved.id)


def replaced_by(s, row, target, found, taken):
    """The node to be replaced, where the new name is there."""
    replaced = s.open_node(u32(taken[0], 0))
    moved = s.open_node(u32(found[0], 0))
    kinds = kind_of(moved.rec) == FOLDER, kind_of(replaced.rec) == FOLDER
    if moved is replaced:
        raise Unchanged
    need(kinds != (True, False), 7)
    need(kinds != (False, True), 9)
    if kinds == (True, True):
        need(replaced.rec.blocks <= 2, 13)
        for k in range(replaced.rec.blocks):
            s.named_slot(replaced, k)
    not_below(s, row, target, moved)
    s.release(moved)
    return replaced


def do_move(s, h, old, to, new):
    row, target = s.handle(h), s.handle(to)
    good_names(old)
    new_name(new)
    folder_to_change(row)
    need(old not in DOTS and new not in DOTS, 9)
    need(len(old) <= 255 and len(new) <= 255, 10)
    folder_to_change(target)
    taken = s.lookup(target, new)
    found = s.lookup(row, old)
    need(found, 11)
    (data, k), id = found, u32(found[0], 0)
    replaced = taken and replaced_by(s, row, target, found, taken)
    if row is target:
        s.put_slot(row, k, id, new, u32(data, 260))
        if replaced:
            s.remove_node(row, replaced, taken[1])
        s.store(row)
        return ()
    if not taken:
        not_below(s, row, target, s.open_node(id))
    s.append(target, id, new, u32(data, 260))
    s.remove(row, k)
    if replaced:
        s.remove_node(target, replaced, taken[1])
    moved = s.open_node(id)
    if is_folder(moved.rec):
        s.links(row, -1)
        s.links(target, 1)
        s.put_slot(moved, 1, target.id, b"..", FOLDER)
    s.store(row)
    s.store(target)
    s.release(moved)
    return ()


class Unchanged(Exception):
    """Done, and nothing is kept."""


def do_metadata(s, h):
    row = s.handle(h)
    r = row.rec
    kind = kind_of(r)
    size = r.blocks if kind == FOLDER else r.size
    return (row.id, size, r.mode, kind, r.blocks, *r.times, r.links, r.uid, r.gid)


def do_set(s, h, mode, uid, gid, *times):
    row = s.handle(h)
    r = row.rec
    r.mode, r.uid, r.gid, r.times = mode, uid % 2 ** 32, gid % 2 ** 32, times[0] + times[1] + times[2]
    row.dirty = 1
    return ()


def do_sync(s):
    for row in sorted(filter(None, s.table.rows), key=lambda row: row.id):
        s.store(row)
    return ()


def do_close(s, h):
    row = s.handle(h)
    s.table.holds[h[0]] = None
    s.release(row)
    return ()


def entry_slots(s, h, at, room):
    row = s.handle(h)
    need(is_folder(row.rec), 7)
    need(at < row.rec.blocks, 11)
    need(room >= SLOT, 20)
    return s.named_slot(row, at)[0]


def first_slot(at, dots):
    """Order 6: where a listing starts. Without the dots asked that is slot 2 at least."""
    return at if dots else max(at, 2)


def list_slots(s, h, at, dots, room):
    row = s.handle(h)
    need(is_folder(row.rec), 7)
    start = first_slot(at, dots)
    left = max(0, row.rec.blocks - start)
    need(left == 0 or room >= SLOT, 20)
    out = b""
    for k in range(start, start + min(left, room // SLOT)):
        data = s.named_slot(row, k)[0]
        need(u32(data, 260) != 0, 19)
        out += data
    return out


# contents: document 02's order 1

def contents(row):
    """The file of a node that has bytes of its own; links are not looked at."""
    need(not is_folder(row.rec) and row.rec.type, 21)
    return 1, row.rec.file


def read_bytes(s, h, at, room):
    row = s.handle(h)
    file, size = contents(row), row.rec.size
    s.files.length(file)
    return s.files.span(file, at, min(size, at + room) - min(size, at))


def set_size(s, row, size):
    s.files.cut((1, row.rec.file), size)
    row.rec.size, row.dirty = size, 1


def do_write(s, h, at, data):
    row = s.handle(h)
    file, end = contents(row), at + len(data)
    need(end <= LIMIT, 22)
    s.files.put(file, at, data)
    if end > row.rec.size:
        set_size(s, row, end)
    return ()


def do_resize(s, h, size):
    row = s.handle(h)
    contents(row)
    need(size <= LIMIT, 22)
    set_size(s, row, size)
    return ()


# ranges: document 02's order 13

ALLOCATE, PUNCH_HOLE, ZERO_RANGE, ZERO_KEEP_SIZE, COLLAPSE, INSERT = range(6)
KEEP_SIZE = 1
PIECE = 128


def whole_pieces(*numbers):
    return all(n % PIECE == 0 for n in numbers)


def range_fits(mode, start, length, size):
    """Document 02: 22 for the end, 6 by start, end and alignment, 22 for a size that grows."""
    end = start + length
    need(end <= LIMIT, 22)
    if mode == COLLAPSE:
        need(end < size and whole_pieces(start, length), 6)
    if mode == INSERT:
        need(start < size and whole_pieces(start, length), 6)
        need(size + length <= LIMIT, 22)


def put_zeros(s, file, start, end):
    """A piece after the other, each a write of its own."""
    while start < end:
        n = min(PIECE, end - start)
        s.files.put(file, start, bytes(n))
        start += n


def shift_down(s, file, start, end, by):
    """The bytes from start to end come to stand so many places lower, the first piece first."""
    while start < end:
        n = min(PIECE, end - start)
        s.files.put(file, start - by, s.files.read(file, start, n))
        start += n


def shift_up(s, file, start, end, by):
    """So many places higher, the last piece first; what is left over at start comes last."""
    while start < end:
        n = min(PIECE, end - start)
        end -= n
        s.files.put(file, end + by, s.files.read(file, end, n))


def do_fallocate(s, h, mode, flags, start, length):
    row = s.handle(h)
    need(not is_folder(row.rec) and row.rec.type == FILE, 21)
    file, size, end = (1, row.rec.file), row.rec.size, start + length
    range_fits(mode, start, length, size)
    if mode == ZERO_RANGE:
        put_zeros(s, file, start, end)
    elif mode in (PUNCH_HOLE, ZERO_KEEP_SIZE):
        put_zeros(s, file, start, min(end, size))
    elif mode == COLLAPSE:
        if length:
            shift_down(s, file, end, size, length)
        set_size(s, row, size - length)
    elif mode == INSERT:
        if length:
            shift_up(s, file, start, size, length)
        put_zeros(s, file, start, end)
        set_size(s, row, size + length)
    grows = mode == ZERO_RANGE or mode == ALLOCATE and not flags & KEEP_SIZE
    if grows and end > size:
        set_size(s, row, end)
    return ()


# the walk: document 02's order 7

def entered(s, text, row):
    """Where a text starts, and its parts."""
    good_names(text)
    parts = text.removeprefix(b"/").split(b"/") if text != b"/" else []
    need(all(parts), 5)
    return (s.look(2) if text.startswith(b"/") else row), parts


def target_of(s, node, room):
    need(node.rec.size <= room, 20)
    s.files.length((1, node.rec.file))
    return s.files.span((1, node.rec.file), 0, node.rec.size)


def do_walk(s, h, path, room, links):
    """The targets that are read go into `links`, and stay there where the walk is refused."""
    at, parts = entered(s, path, s.handle(h))
    met = 0
    while parts:
        part, *parts = parts
        node = s.look(named_in(s, at, part))
        is_folder(node.rec)
        if node.rec.type != SYMLINK:
            at = node
            continue
        need(met < MOST_LINKS, 23)
        met += 1
        target = target_of(s, node, room - len(links))
        links += target
        at, first = entered(s, target, at)
        parts = first + parts
    need(not s.full(), 16)
    return s.hold(s.open_node(at.id))


# the full path: document 02's order 14

def name_in(s, folder, id):
    """The name in the first later slot that names this node."""
    k = next((k for k in range(2, folder.rec.blocks) if u32(s.slot(folder, k), 0) == id), None)
    need(k, 19)
    return s.named_slot(folder, k)[1]


def path_bytes(s, h, room):
    """It opens nothing: the record of a folder above is the row's or the stored one."""
    at, names = s.handle(h), []
    need(is_folder(at.rec), 7)
    need(at.rec.links > 0, 8)
    while at.id != 2:
        need(len(names) < MOST_FOLDERS, 19)
        above = u32(s.slot(at, 1), 0)
        folder = Row(above, 0, s.record(above))
        need(folder.rec.type == FOLDER, 19)
        names.append(name_in(s, folder, at.id))
        at = folder
    path = b"".join(b"/" + name for name in reversed(names)) or b"/"
    need(len(path) <= room, 20)
    return path


# ---------------------------------------------------------------- the checker

def verdict(model):
    """The lowest failing rule, or the line's words of a pass."""
    if not model.is_sound():
        return "fail rule 1"
    if model.table is None:
        return "fail rule 2"
    try:
        return "pass nodes %d unused %d free %d" % Checker(model.files, model.table).counts()
    except Refused as failed:
        return f"fail rule {failed.reason}"


class Checker:
    def __init__(self, files, table):
        self.files, self.table = files, table

    def stored(self, id):
        return self.files.read(META, 128 * id, RECORD)

    def counts(self):
        self.superblock()
        self.bits()
        self.records()
        self.slots = {id: self.folder(id) for id in self.folders()}
        self.sizes()
        self.named = self.names()
        self.link_counts()
        for id in self.folders():
            if self.recs[id].links:
                self.climb(id)
        return len(self.nodes), self.unused, len(self.files.free())

    def superblock(self):
        try:
            magic, blocks, self.unused, groups = struct.unpack("<4I", self.files.read(META, 0, 16))
            need(magic == MAGIC and 1 <= groups <= 4 and blocks == GROUP * groups, 3)
            need(self.files.length(META) == 128 * GROUP * groups, 3)
            maps = b"".join(self.files.read(META, 128 * (GROUP * g + 1), 128) for g in range(groups))
        except Refused:
            raise Refused(3)
        self.clear = [id for id in range(GROUP * groups) if not maps[id // 8] >> id % 8 & 1]
        need(self.unused == GROUP * groups - len(self.clear), 3)
        self.kept = {0} | {GROUP * g + 1 for g in range(groups)}

    def bits(self):
        need(self.kept | {2} <= set(self.clear), 4)
        self.nodes = [id for id in self.clear if id not in self.kept]
        for row in filter(None, self.table.rows):
            need(row.id in self.nodes, 4)
            need(row.dirty or row.rec.bytes() == self.stored(row.id), 4)

    def records(self):
        rows = {row.id: row.rec for row in self.table.rows if row}
        self.recs = {id: rows.get(id) or Record.read(self.stored(id)) for id in self.nodes}
        need(all(1 <= r.type <= 4 for r in self.recs.values()), 5)
        names = {r.file for r in self.recs.values()}
        there = {file[1] for tag, file, _ in self.files.blocks.at if tag == 1 and file[0] == 1}
        need(len(names) == len(self.nodes) and names == there, 5)
        need(self.recs[2].type == FOLDER, 5)

    def folders(self):
        return [id for id in self.nodes if self.recs[id].type == FOLDER]

    def folder(self, id):
        r = self.recs[id]
        need(r.blocks >= 2 and self.files.length((1, r.file)) == SLOT * r.blocks, 6)
        slots = []
        for k in range(r.blocks):
            data = self.files.read((1, r.file), SLOT * k, SLOT)
            name, end, _ = data[4:260].partition(b"\0")
            need(end, 6)
            slots.append((u32(data, 0), name, u32(data, 260)))
        need(slots[0] == (id, b".", FOLDER) and slots[1][1:] == (b"..", FOLDER), 6)
        for node, name, kind in slots[2:]:
            need(utf8(name) and name not in DOTS, 6)
            need(node in self.recs and self.recs[node].type == kind, 6)
        need(len({name for _, name, _ in slots[2:]}) == len(slots) - 2, 6)
        return slots

    def sizes(self):
        for r in self.recs.values():
            need(r.type == FOLDER or self.files.length((1, r.file)) == r.size, 6)

    def names(self):
        """Of each node the folders in which later slots name it, once for each such slot."""
        named = {id: [] for id in self.nodes}
        for folder, slots in self.slots.items():
            for node, _, _ in slots[2:]:
                named[node].append(folder)
        return named

    def due(self, id):
        """The links by rule 7: how often later slots name it; of a folder 2, and one for each folder in it."""
        if self.recs[id].type != FOLDER:
            return len(self.named[id])
        return 2 + sum(kind == FOLDER for _, _, kind in self.slots[id][2:])

    def link_counts(self):
        opened = {row.id for row in self.table.rows if row}
        for id in self.nodes:
            r, times = self.recs[id], len(self.named[id])
            if r.type != FOLDER:
                need(r.links == self.due(id) and (times or id in opened), 7)
                continue
            linked = r.links == self.due(id) and times == (id != 2)
            removed = id != 2 and id in opened and r.links == 0 and times == 0 and r.blocks == 2
            need(linked or removed, 7)

    def climb(self, id):
        above = self.slots[id][1][0]
        need(above == (2 if id == 2 else self.named[id][0]), 8)
        seen = set()
        while id != 2:
            need(id in self.slots and id not in seen, 8)
            seen.add(id)
            id = self.slots[id][1][0]


# ---------------------------------------------------------------- the inventory: document 02's order 10

def escaped(name):
    return b"".join(b"\\%02x" % b if b < 33 or b in (92, 127) else bytes([b]) for b in name)


def inventory_text(files):
    """A line for each later slot of each folder from root on; 18 where the checker fails the arena with the empty table."""
    seen = Checker(files, Table())
    try:
        seen.counts()
    except Refused:
        raise Refused(18)
    # the slots that are still to be listed, the next one last, each with the path of its folder
    due, text = [(b"", slot) for slot in reversed(seen.slots[2][2:])], []
    while due:
        above, (id, name, _) = due.pop()
        path, rec = above + b"/" + escaped(name), seen.recs[id]
        text.append(b"%d %d %d %s\n" % (id, rec.type, rec.links, path))
        if rec.type == FOLDER:
            due += ((path, slot) for slot in reversed(seen.slots[id][2:]))
    return b"".join(text)


# ---------------------------------------------------------------- the mender: document 02's order 11

class Mender(Checker):
    """The checker's rules over what is stored, with no node open: those aside that the mender sets right."""

    def judge(self):
        """Rules 3 to 6 without the sizes; root is named by no later slot; another folder by one, and is under root, or by none, and is empty."""
        self.superblock()
        self.bits()
        self.records()
        self.slots = {id: self.folder(id) for id in self.folders()}
        self.named = self.names()
        for id in self.folders():
            times = len(self.named[id])
            need(times == 0 if id == 2 else times == 1 or times == 0 and self.recs[id].blocks == 2, 7)
            if id == 2 or times:
                self.climb(id)

    def mended(self, id):
        """The record with its links by the slots, and the size of what is no folder by its file."""
        r = self.recs[id].copy()
        r.links = self.due(id)
        if r.type != FOLDER:
            r.size = self.files.length((1, r.file))
        return r


def do_mend(s):
    need(not any(s.table.holds), 24)
    seen = Mender(s.start, Table())
    try:
        seen.judge()
    except Refused:
        raise Refused(18)
    lost = [id for id in seen.nodes if id != 2 and not seen.named[id]]
    for id in lost:
        s.free_id(id)
        s.files.drop((1, seen.recs[id].file))
    for id in sorted(set(seen.nodes) - set(lost)):
        record = seen.mended(id).bytes()
        if record != seen.stored(id):
            s.files.put(META, 128 * id, record)
    s.store_fs()
    return ()


# ---------------------------------------------------------------- scripts

NAMES = ("format", "open", "root", "find", "create", "link", "move", "metadata", "set", "entry", "list", "sync", "close", "check",
         "read", "write", "resize", "walk", "remove-file", "remove-folder", "inventory", "mend", "fallocate", "path")
BYTES = dict(zip(NAMES, (*range(16, 22), *range(23, 31), *range(32, 42))))
NAMED = {byte: name for name, byte in BYTES.items()}
DOES = {"root": do_root, "find": do_find, "create": do_create, "link": do_link, "move": do_move, "metadata": do_metadata, "set": do_set,
        "sync": do_sync, "close": do_close, "write": do_write, "resize": do_resize, "walk": do_walk, "remove-file": do_remove_file, "remove-folder": do_remove_folder, "mend": do_mend,
        "fallocate": do_fallocate}
OUTPUTS = {"entry": entry_slots, "list": list_slots, "read": read_bytes, "path": path_bytes}
# What follows a command's byte; p, the owner who asks, stands first where there is one, d says whether the dots are asked for, l is a path, and m a mode.
SHAPES = {"format": "tf", "open": "", "root": "p", "find": "phn", "create": "phn42tf", "link": "phnh", "move": "phnhn",
          "metadata": "ph", "set": "ph288ttt", "entry": "ph8o", "list": "ph8do", "sync": "", "close": "ph", "check": "",
          "read": "ph8o", "write": "ph8w", "resize": "ph8", "walk": "phlo", "remove-file": "phn", "remove-folder": "phn",
          "inventory": "o", "mend": "", "fallocate": "phm188", "path": "pho"}


class BadScript(Exception):
    pass


class Script:
    def __init__(self, data, shapes=SHAPES, table=TABLE_BYTES, named=NAMED):
        self.data, self.at, self.shapes, self.table, self.named = data, 0, shapes, table, named

    def bytes(self, n):
        if self.at + n > len(self.data):
            raise BadScript
        self.at += n
        return self.data[self.at - n:self.at]

    def number(self, n, limit=None):
        value = int.from_bytes(self.bytes(n), "little")
        if limit is not None and value > limit:
            raise BadScript
        return value

    def item(self, shape):
        if shape in "1248":
            return self.number(int(shape))
        if shape in "pd":
            return self.number(1)
        if shape == "m":
            return self.number(1, INSERT)
        if shape == "o":
            return self.number(2, OUTPUT)
        if shape == "h":
            return self.number(4), self.number(8)
        if shape == "n":
            return self.bytes(self.number(2, 1024))
        if shape in "wl":
            return self.bytes(self.number(2, OUTPUT))
        if shape == "t":
            return struct.unpack("<2q", self.bytes(16))
        return self.bytes(16)

    def commands(self):
        """Each command as its name and what follows."""
        while self.at < len(self.data):
            byte = self.number(1)
            if byte == 0:
                return
            if byte == 1:
                yield "arena", (self.bytes(self.number(4, 2_097_664)),)
            elif byte == 2:
                yield "arena", (bytes(self.number(4, 2_097_664)),)
            elif byte == 3:
                yield "poke", (self.number(4), self.number(1))
            elif byte == 4:
                yield "table", (self.bytes(self.table),)
            elif self.named.get(byte) in self.shapes:
                name = self.named[byte]
                yield name, tuple(self.item(shape) for shape in self.shapes[name])
            else:
                raise BadScript


def output_sum(written):
    return f" o {carry(bytes(written).ljust(OUTPUT, bytes([238])))[0]}"


class Model:
    def __init__(self):
        self.set_arena(bytes(16 * BLOCK))
        self.set_table(b"".join(Table().parts()))

    # the state: bytes where they are not sound or well formed, files and rows where they are

    def set_arena(self, data):
        self.raw, self.files, self.judged = data, None, False

    def is_sound(self):
        if not self.judged:
            self.judged = True
            if legal(self.raw) and sound(self.raw):
                self.files = Files(Blocks(self.cut(self.raw)))
        return self.files is not None

    @staticmethod
    def cut(data):
        return [data[k:k + BLOCK] for k in range(0, len(data), BLOCK)]

    def arena_bytes(self):
        return self.files.bytes() if self.files else self.raw

    def poke(self, place, value):
        data = self.arena_bytes()
        if place < len(data):
            self.set_arena(data[:place] + bytes([value]) + data[place + 1:])

    def set_table(self, data):
        data = bytearray(data)
        for k in range(ROWS):
            data[117 * k + 4] = int(data[117 * k + 4] != 0)
        self.raw_table, self.table = bytes(data), Table.read(bytes(data))

    def table_bytes(self):
        return b"".join(self.table.parts()) if self.table else self.raw_table

    def keep(self, step):
        self.files, self.table = step.files, step.table

    def sums(self):
        arena = self.files.blocks if self.files else self.cut(self.raw)
        return "a %d t %d" % (total(arena), total(self.table.parts() if self.table else [self.raw_table]))

    # calls

    def enter(self, name, args):
        """What every call with a table asks first; the rest of its arguments, where it has an owner."""
        need(legal(self.raw) if not self.files else True, 1)
        need(self.is_sound(), 2)
        need(self.table, 3)
        if not SHAPES[name].startswith("p"):
            return Step(self.files, self.table), args
        who, *args = args
        need(who in OWNERS, 6)
        return Step(self.files, self.table, who), args

    def run(self, name, args):
        """The line of one call."""
        if name == "check":
            return f"check {verdict(self)} {self.sums()}"
        middle, values, links = "", (), bytearray()
        try:
            if name in ("format", "open"):
                getattr(self, name)(*args)
            elif name == "inventory":
                middle = output_sum(b"")
                text = self.inventory(*args)
                values, middle = (len(text),), output_sum(text)
            elif name in OUTPUTS:
                out, values, middle = self.output(name, args)
                if isinstance(out, int):
                    raise Refused(out)
            else:
                values = self.change(name, (*args, links) if name == "walk" else args)
            answer = " ".join(["ok", *map(str, values)])
        except Refused as refusal:
            answer = f"no {refusal.reason}"
        if name == "walk":
            middle = output_sum(links)
        return f"{name} {answer}{middle} {self.sums()}"

    def change(self, name, args):
        step, args = self.enter(name, args)
        try:
            values = DOES[name](step, *args)
        except Unchanged:
            return ()
        self.keep(step)
        return values

    def output(self, name, args):
        try:
            step, rest = self.enter(name, args)
            out = written = OUTPUTS[name](step, *rest)
        except Refused as refusal:
            out, written = refusal.reason, b""
        middle = output_sum(written)
        if name == "entry":
            return out, (), middle
        if name in ("read", "path"):
            return out, (len(written),), middle
        (at, dots), count = args[2:4], len(written) // SLOT
        return out, (count,), f"{middle} p {at if isinstance(out, int) else first_slot(at, dots) + count}"

    def format(self, time, file):
        size = len(self.arena_bytes())
        need(size % BLOCK == 0 and 16 <= size // BLOCK <= 4096, 1)
        step = Step(Files(Blocks([bytes(BLOCK)] * (size // BLOCK))), Table())
        root = Row(2, 1, new_record(FOLDER, 493, time, file))
        root.rec.links, root.rec.blocks = 2, 2
        step.files.make(META)
        step.files.cut(META, 128 * GROUP)
        step.files.make((1, file))
        step.put_slot(root, 0, 2, b".", FOLDER)
        step.put_slot(root, 1, 2, b"..", FOLDER)
        step.loaded = [MAGIC, GROUP, GROUP - 3, bytearray(b"\xf8" + b"\xff" * 127)]
        step.store_fs()
        step.store(root)
        self.judged = True
        self.keep(step)

    def open(self):
        if not self.files:
            need(legal(self.raw), 1)
        need(self.is_sound(), 2)
        step = Step(self.files, Table())
        magic, _, _, groups = struct.unpack("<4I", step.files.read(META, 0, 16))
        need(magic == MAGIC and 1 <= groups <= 4, 18)
        step.fs()
        self.table = step.table

    def inventory(self, room):
        """The text; the table, whatever it is, is not looked at."""
        need(legal(self.raw) if not self.files else True, 1)
        need(self.is_sound(), 2)
        text = inventory_text(self.files)
        need(len(text) <= room, 20)
        return text


def lines(data, model=None):
    """Everything a right port prints for a script."""
    model = model or Model()
    if len(data) > 1_048_576:
        yield "bad script"
        return
    try:
        for name, args in Script(data).commands():
            if name == "arena":
                model.set_arena(*args)
            elif name == "poke":
                model.poke(*args)
            elif name == "table":
                model.set_table(*args)
            else:
                yield model.run(name, args)
    except BadScript:
        yield "bad script"


if __name__ == "__main__":
    for line in lines(sys.stdin.buffer.read()):
        print(line)
