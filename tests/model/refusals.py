"""The last part of the gate's script (gate.py), in which every reason of document 01 and of document 02's orders so far is answered, contents are
written, read and resized, ranges of them put in, taken out and made zero, folders are moved to other folders, stored sockets are used, paths are walked,
inventories and full paths written and what a host left behind is mended, and its lines.

Each step below says the reason that the documents give, or the bytes that a read finds; the lines, sums and all, are the independent
model's (replay_model.py), and the port is not asked.
"""
import pathlib
import struct
import sys

sys.path.insert(0, str(pathlib.Path(__file__).resolve().parent.parent / "beside_rust"))
from arena_model import LIMIT, made as block, sealed, sum_of
from range_runs import text_after
from scripts import FILE, FOLDER, META, MODES, SOCKET, SYMLINK, TIME, Builder, model, table_bytes

ROOT_FILE = bytes([200] * 16)
NOBODY = (7, 7)
LONGEST = b"n" * 255
ALLOCATE, PUNCH, ZERO, ZERO_KEEP, COLLAPSE, INSERT = range(len(MODES))
# Zero bytes, and what RFC 3629 does not allow: a tail alone, a lead alone, overlong, a surrogate, beyond U+10FFFF.
BAD_NAMES = (b"\0", b"a\0b", b"\x80", b"a\xc3", b"\xc0\xaf", b"\xed\xa0\x80", b"\xf4\x90\x80\x80")


class Script(Builder):
    def __init__(self):
        super().__init__(16)
        self.lines = []

    def call(self, name, *args, words=""):
        made = super().call(name, *args, words=words)
        self.lines.append(self.line)
        return made

    def ok(self, made=None):
        """The call made last was done."""
        assert " ok" in self.line or " pass" in self.line, self.line
        return made

    def no(self, reason, *calls):
        """Each of these calls is refused for this reason and leaves arena, table and place."""
        for name, *args in calls:
            before = self.at.sums()
            self.call(name, *args)
            words = self.line.split(" ")
            assert words[1:3] == ["no", str(reason)] and self.line.endswith(before), (reason, args, self.line)
            assert name != "list" or words[6] == str(args[1]), self.line

    def fails(self, rule):
        self.check()
        assert self.line.startswith(f"check fail rule {rule} "), self.line

    def reads(self, h, at, room, want):
        """A read finds these bytes; the output after them stays."""
        before = self.at.sums()
        self.read(h, at, room)
        output = sum_of(want.ljust(model.OUTPUT, bytes([238])))
        assert self.line == f"read ok {len(want)} o {output} {before}", (self.line, want)

    def lists(self, h, at, dots, room, count, after):
        """A listing writes so many slots, as they are stored from there on, and leaves that place."""
        before = self.at.sums()
        self.list(h, at, room, dots)
        row = self.at.table.rows[self.at.table.holds[h[0]][0]]
        start = at if dots else max(at, 2)
        slots = self.at.files.span((1, row.rec.file), 264 * start, 264 * count) if count else b""
        assert self.line == f"list ok {count} o {sum_of(slots.ljust(model.OUTPUT, bytes([238])))} p {after} {before}", (self.line, at, dots, room)

    def stores(self, name, *args):
        """A write or resize is done, and the pair passes after it."""
        self.call(name, *args)
        self.ok()
        self.check()
        self.ok()

    def sized(self, h, size):
        self.metadata(h)
        assert self.line.split(" ")[3] == str(size), (self.line, size)

    def does(self, *calls):
        """Each of these calls is done."""
        for name, *args in calls:
            self.call(name, *args)
            self.ok()

    def ranges(self, h, mode, start, length, text, flags=0):
        """A fallocate is done, and makes of this text what the Linux page says: it is the answer."""
        self.stores("fallocate", h, mode, flags, start, length)
        text = text_after(text, mode, flags, start, length)
        self.reads(h, 0, 8192, text)
        return text

    def dirty(self, h):
        return self.at.table.rows[self.at.table.holds[h[0]][0]].dirty

    def moves(self, *args):
        """A move is done, and the pair passes after it."""
        self.move(*args)
        self.ok()
        self.check()
        self.ok()

    def leads(self, h, id):
        """`..` of this folder leads to that node."""
        up = self.ok(self.find(h, ".."))
        self.metadata(up)
        assert self.line.split(" ")[2] == str(id), (self.line, id)
        self.close(up)

    def dots(self, id, field, value):
        """Slot 1 of this node's file gets another value, from outside."""
        self.at.is_sound()
        place = {"id": 0, "type": 260}[field]
        file = model.Record.read(self.at.files.read(META, 128 * id, model.RECORD)).file
        self.change((1, file), 264 + place, value.to_bytes(4, "little"), f"set the {field} in slot 1 of node {id} to {value}")
        self.at.is_sound()

    def symlink(self, h, name, target):
        made = self.ok(self.create(h, name, SYMLINK))
        self.stores("write", made, 0, target.encode())
        self.close(made)

    def walks(self, h, path, id, targets="", room=8192):
        """A walk leads to that node, and the link buffer has these targets."""
        made = self.ok(self.walk(h, path, room))
        assert f" o {links_sum(targets)} " in self.line, (self.line, path)
        self.metadata(made)
        assert self.line.split(" ")[2] == str(id), (self.line, path)
        self.close(made)

    def stops(self, reason, h, path, targets="", room=8192):
        """A walk is refused, and the targets that it has read stay in the link buffer."""
        before = self.at.sums()
        self.walk(h, path, room)
        assert self.line == f"walk no {reason} o {links_sum(targets)} {before}", (self.line, path)

    def delivers(self, text, room=8192):
        """The inventory is this text; the output after it stays."""
        before = self.at.sums()
        self.inventory(room)
        output = sum_of(text.ljust(model.OUTPUT, bytes([238])))
        assert self.line == f"inventory ok {len(text)} o {output} {before}", (self.line, self.at.inventory(model.OUTPUT))

    def not_delivered(self, reason, room=8192):
        """It is refused, and the output stays as it is."""
        self.no(reason, ("inventory", room))
        assert f" o {links_sum('')} " in self.line, self.line

    def named(self, h, path, room=8192):
        """The folder's path is this text; the output after it stays."""
        before = self.at.sums()
        self.path(h, room)
        output = sum_of(path.ljust(model.OUTPUT, bytes([238])))
        assert self.line == f"path ok {len(path)} o {output} {before}", (self.line, path)

    def nameless(self, reason, h, room=8192):
        """Its path is refused, and the output stays as it is."""
        self.no(reason, ("path", h, room))
        assert f" o {links_sum('')} " in self.line, self.line

    def just(self, h, path):
        """Its path fits to the byte."""
        self.named(h, path, len(path))
        self.nameless(20, h, len(path) - 1)

    def idle(self):
        """The mender is done, and changes nothing."""
        before = self.at.sums()
        self.mend()
        assert self.line == f"mend ok {before}", self.line

    def mends(self):
        """The mender is done with some change, and leaves the table; then the pair passes, and there is nothing left to mend."""
        arena, table = self.at.sums().split(" t ")
        self.mend()
        self.ok()
        assert self.line.endswith(f" t {table}") and arena not in self.line, self.line
        self.check()
        self.ok()
        self.idle()

    def died(self):
        """The host goes down and comes up again: no hold is live, and the table has nothing of what was only there."""
        self.open()
        self.ok()

    def spoilt(self, damage, rule):
        """What is changed from outside can't be mended, by that rule; it is put back after it."""
        before = list(self.at.files.blocks)
        damage()
        self.fails(rule)
        self.no(18, ("mend",))
        for k, (old, new) in enumerate(zip(list(self.at.files.blocks), before)):
            self.poke_block(k, old, new)
        self.at.is_sound()

    def lost(self, file):
        """The file gets another name."""
        k = self.at.files.place(1, file)
        old = self.at.files.blocks[k]
        self.poke_block(k, old, sealed(old[:4] + b"lost" + old[8:]))

    def socket(self, root, name):
        """A socket as it was stored before order 8: a new file of the root gets that type from outside, in record and slot. The image is opened anew."""
        file, folder = (self.at.table.rows[self.at.table.holds[h[0]][0]] for h in (self.ok(self.create(root, name)), root))
        k = folder.rec.blocks - 1
        for owner in model.OWNERS:
            self.who = owner
            for hold, of in enumerate(self.at.table.holds):
                if of and of[2] == owner:
                    self.close((hold, of[1]))
        self.who = 1
        self.record(file.id, "type", SOCKET)
        self.change((1, ROOT_FILE), 264 * k + 260, SOCKET.to_bytes(4, "little"), f"set the type in slot {k} of the root to {SOCKET}")
        return self.again()

    def arena(self, length):
        self.raw(b"\2" + struct.pack("<I", length), f"arena of {length} bytes")
        self.at.set_arena(bytes(length))

    def fresh(self, blocks=16):
        """A fresh image, and its root."""
        self.arena(512 * blocks)
        self.format()
        return self.ok(self.root())

    def again(self):
        self.open()
        return self.ok(self.root())


def links_sum(targets):
    return sum_of(targets.encode().ljust(model.OUTPUT, bytes([238])))


def create(h, name, kind=FILE, file=b"f" * 16):
    return "create", h, name, kind, 420, TIME, file


def looks(h, name=b"a"):
    """Every call that takes a table and leaves the arena."""
    return (("root",), ("find", h, name), ("metadata", h), ("set", h, 420, 1, 2, TIME, TIME, TIME), ("entry", h, 0, 264),
            ("list", h, 0, 0, 8192), ("read", h, 0, 8), ("walk", h, name, 8), ("path", h, 8192))


def removals(h, name):
    """The two calls of order 9."""
    return ("remove-file", h, name), ("remove-folder", h, name)


def changes(h, name=b"a"):
    """Every call that takes a table and may change the arena."""
    return (create(h, name), ("link", h, name, h), *removals(h, name), ("move", h, name, h, b"b"), ("sync",), ("close", h),
            ("write", h, 0, b"a"), ("resize", h, 1), fallocate(h, INSERT, 0, 128), ("mend",))


def fallocate(h, mode, start, length, flags=0):
    return "fallocate", h, mode, flags, start, length


def every_mode(h, start, length, modes=range(6)):
    return tuple(fallocate(h, mode, start, length) for mode in modes)


def takes_contents(h, at=0, data=b""):
    """The calls of order 1, at that place and with those bytes, and to that length."""
    return ("read", h, at, len(data)), ("write", h, at, data), ("resize", h, at)


def takes_table(h):
    return looks(h) + changes(h)


def takes_name(h, name):
    return (("find", h, name), create(h, name), ("link", h, name, h), *removals(h, name), ("move", h, name, h, b"b"),
            ("move", h, b"b", h, name), ("walk", h, name, 8))


def record(kind, links, blocks, file):
    """A record's bytes."""
    made = model.new_record(kind, 493, TIME, file)
    made.links, made.blocks = links, blocks
    return made.bytes()


def bad_arena(b):
    root = b.fresh()
    for length in (0, 512 * 15, 512 * 16 + 1):
        b.arena(length)
        b.no(1, ("format", TIME, ROOT_FILE), ("open",), *takes_table(root))
        b.not_delivered(1, 0)
        b.fails(1)


def damaged(b):
    root = b.fresh()
    b.raw(b"\3" + struct.pack("<IB", 512 * 15 + 100, 1), "poke")
    b.at.poke(512 * 15 + 100, 1)
    b.no(2, ("open",), *takes_table(root))
    b.not_delivered(2, 0)
    b.fails(1)
    b.format()
    b.ok()


def bad_table(b):
    b.fresh()
    root = 2, 0, record(FOLDER, 2, 2, ROOT_FILE)
    for bad in (table_bytes([], [], 0), table_bytes([root], [], 1), table_bytes([root], [(0, 1, 1), (0, 1, 1)], 2)):
        b.table(bad)
        b.no(3, *takes_table((0, 1)))
        b.delivers(b"", 0)
        b.fails(2)
    b.open()
    b.ok()


def bad_owners(b):
    """Order 5: a table whose holds have owners that are none, too many of one owner's, or a free hold with an owner: 3, before 6, and rule 2."""
    b.fresh()
    root = 2, 0, record(FOLDER, 2, 2, ROOT_FILE)
    nine = [(0, 1 + k, 1) for k in range(9)]
    for bad in ([(0, 1, 0)], [(0, 1, 9)], [(0, 1, 1), (0, 0, 1)], nine):
        b.table(table_bytes([root], bad, 99))
        b.no(3, ("root",), ("metadata", (0, 1)), ("sync",), ("mend",), ("list", (0, 1), 0, 0, 264))
        b.who = 5
        b.no(3, ("root",), ("close", (0, 1)))
        b.who = 1
        b.fails(2)
    b.open()
    b.ok()


def bad_handle(b):
    root = b.fresh()
    closed = b.ok(b.create(root, "a"))
    b.close(closed)
    for h in (closed, NOBODY, (0, 2), (0, 0), (32, 1)):
        b.no(4, *(call for call in asks(h) if call[0] != "root"))
    b.no(4, ("link", root, b"b", closed), ("move", root, b"a", closed, b"b"))
    b.no(4, *takes_name(closed, b"\0"))


def asks(h):
    """Every call that says who asks."""
    return tuple(call for call in takes_table(h) if call[0] not in ("sync", "mend"))


def owners(b):
    """Order 5: 6 for who is none, right after 3; 4 for another's handle, either of link and move; a node is shared, a hold is not."""
    root = b.fresh(32)
    mine = b.ok(b.create(root, "a", FOLDER))
    for b.who in (0, 5, 255):
        b.no(6, *asks(root), *asks(NOBODY), create(NOBODY, b"\0", 5))
    for b.who in (2, 3, 4):
        b.no(4, *(call for call in asks(root) if call[0] != "root"), create(root, b"/", 5))
    b.who = 2
    hers = b.ok(b.root())
    b.no(4, ("link", hers, b"b", mine), ("link", root, b"b", hers), ("move", hers, b"a", mine, b"b"), ("move", mine, b"a", hers, b"b"))
    found = b.ok(b.find(hers, "a"))
    b.ok(b.create(found, "x"))
    b.remove_file(found, "x")
    b.ok()
    b.remove_folder(hers, "a")
    b.ok()
    b.close(found)
    b.ok()
    b.who = 1
    b.no(4, ("close", found), ("close", hers))
    b.no(8, create(mine, b"y"))
    b.check()
    b.ok()
    b.close(mine)
    b.ok()
    b.check()
    b.ok()


def bad_name(b):
    root = b.fresh()
    for name in BAD_NAMES:
        b.no(5, *takes_name(root, name))
    b.no(5, create(root, b"\0", 5))


def slashes(b):
    """Order 4: 5 for a slash in a new name, in its old place. Stored ones are found, listed, removed and moved away, and the pair passes."""
    root = b.fresh(32)
    a = b.ok(b.create(root, "a"))
    b.no(4, create(NOBODY, b"/"), ("link", root, b"/", NOBODY), ("move", root, b"a", NOBODY, b"/"))
    for name in (b"/", b"a/b", b"/" * 256, "é/".encode()):
        b.no(5, create(root, name), create(root, name, 5), create(a, name), ("link", root, name, a), ("link", a, name, root),
             ("move", root, b"a", root, name), ("move", root, b"none", root, name), ("move", root, b"..", a, name))
    b.no(11, ("find", root, b"a/b"), *removals(root, b"a/b"), ("move", root, b"a/b", root, b"b"))
    b.no(10, ("find", root, b"/" * 256), *removals(root, b"/" * 256), ("move", root, b"/" * 256, root, b"b"))
    b.no(7, ("find", a, b"a/b"), *removals(a, b"a/b"))
    for name, way in (("c-d", "remove-file"), ("e-f", "move")):
        b.close(b.ok(b.create(root, name)))
        b.change((1, ROOT_FILE), 264 * 3 + 5, b"/", "set a slash in slot 3's name")
        name = name.replace("-", "/")
        b.check()
        b.ok()
        b.close(b.ok(b.find(root, name)))
        b.no(5, ("move", root, name.encode(), root, name.encode()))
        b.call("entry", root, 3, 264)
        b.ok()
        b.list(root)
        b.ok()
        b.call(way, *((root, name.encode()) if way != "move" else (root, name.encode(), root, b"b")))
        b.ok()
        b.no(11, ("find", root, name.encode()))
    b.check()
    b.ok()


def sockets(b):
    """Order 8: 6 for type 4 in create, in its old place. A stored socket is found, read, written, linked, moved and removed, and the pair passes."""
    root = b.fresh(40)
    file = b.ok(b.create(root, "file"))
    b.no(4, create(NOBODY, b"s", SOCKET))
    b.no(5, create(root, b"/", SOCKET), create(file, b"\0", SOCKET))
    b.no(6, create(root, b"s", SOCKET), create(file, b"s", SOCKET), create(root, b"file", SOCKET), create(root, b"n" * 256, SOCKET), create(root, b"s", SOCKET, ROOT_FILE))
    b.ok(b.create(root, "folder", FOLDER))
    for name in ("s", "t"):
        root = b.socket(root, name)
        b.check()
        b.ok()
    s, folder = b.ok(b.find(root, "s")), b.ok(b.find(root, "folder"))
    b.metadata(s)
    assert b.line.split(" ")[5] == str(SOCKET), b.line
    b.lists(root, 0, 0, 8192, 4, 6)
    b.call("entry", root, 4, 264)
    b.ok()
    b.stores("write", s, 470, b"across two blocks")
    b.reads(s, 468, 100, b"\0\0across two blocks")
    b.stores("resize", s, 472)
    b.call("set", s, 511, 1, 2, TIME, TIME, TIME)
    b.ok()
    for name in ("u", "v"):
        b.stores("link", folder, name.encode(), s)
    b.no(12, ("link", folder, b"u", s), create(root, b"s"))
    b.no(7, *takes_name(s, b"a"), ("list", s, 0, 0, 8192))
    b.no(9, ("move", root, b"s", root, b"folder"))
    b.no(7, ("move", root, b"folder", root, b"s"))
    b.moves(root, "s", root, "w")
    b.moves(root, "w", folder, "x")
    b.moves(root, "t", folder, "u")
    b.moves(root, "file", folder, "u")
    b.moves(folder, "v", root, "s")
    b.no(7, ("remove-folder", root, b"s"))
    b.stores("remove-file", root, b"s")
    b.stores("remove-file", folder, b"x")
    b.reads(s, 469, 100, b"\0ac")
    b.close(s)
    b.ok()
    b.call("sync")
    b.check()
    b.ok()


def by_call(b):
    """6 to 13, 18 and 20, each from the call that has it."""
    root = b.fresh(32)
    file = b.ok(b.create(root, "file"))
    gone = b.ok(b.create(root, "gone", FOLDER))
    full = b.ok(b.create(root, "full", FOLDER))
    b.ok(b.create(full, "x"))
    b.remove_folder(root, "gone")
    b.ok()
    b.no(6, create(root, b"a", 0), create(root, b"a", 4), create(root, b"a", 5), create(file, b"a", 5))
    b.no(7, *takes_name(file, b"a"), ("entry", file, 0, 0), ("list", file, 0, 0, 0), ("move", root, b"file", file, b"a"))
    b.no(7, ("move", root, b"full", root, b"file"))
    b.no(8, *(call for call in takes_name(gone, b"a") if call[0] not in ("find", "walk")), ("find", gone, b".."), ("move", root, b"file", gone, b"a"))
    for name in (b".", b"..", b""):
        b.no(9, *removals(root, name), ("move", root, name, root, b"a"), ("move", root, b"file", root, name))
    b.no(9, ("link", root, b"a", full), ("move", root, b"file", root, b"full"))
    b.no(10, *takes_name(root, b"n" * 256))
    b.no(11, ("find", root, b"a"), *removals(root, b"a"), ("move", root, b"a", root, b"b"), ("entry", root, 4, 264), ("entry", root, 4, 0))
    b.no(12, create(root, b"file"), ("link", root, b"full", file), create(root, b""))
    b.no(13, ("remove-folder", root, b"full"))
    b.no(9, ("remove-file", root, b"full"))
    b.no(7, ("remove-folder", root, b"file"))
    b.ok(b.create(root, "other", FOLDER))
    b.no(13, ("move", root, b"other", root, b"full"))
    b.no(20, ("entry", root, 0, 263), ("list", root, 0, 0, 263), ("list", root, 0, 1, 263), ("entry", root, 3, 0), ("list", root, 3, 0, 0))
    for field, value in (("magic", 1), ("groups", 0), ("groups", 5)):
        b.fresh()
        b.superblock(field, value)
        b.no(18, ("open",))
        b.not_delivered(18, 0)


def two_keys(b):
    """Order 9: 9 for a folder from remove-file, 7 for anything else from remove-folder; both after 11 and before 13."""
    root = b.fresh(48)
    kinds = (("file", FILE), ("link", SYMLINK), ("empty", FOLDER), ("full", FOLDER))
    made = {name: b.ok(b.create(root, name, kind)) for name, kind in kinds}
    b.close(b.ok(b.create(made["full"], "x")))
    for name in ("file", "link"):
        b.no(7, ("remove-folder", root, name.encode()))
    for name in ("empty", "full"):
        b.no(9, ("remove-file", root, name.encode()))
    b.no(13, ("remove-folder", root, b"full"))
    b.no(11, *removals(root, b"x"), *removals(root, b"/"))
    b.no(9, *removals(root, b"."), *removals(root, b".."), *removals(root, b""))
    b.link(root, "again", made["file"])
    b.ok()
    for call, name in (("remove-file", b"file"), ("remove-file", b"link"), ("remove-folder", b"empty"), ("remove-file", b"again")):
        b.stores(call, root, name)
        b.no(11, *removals(root, name))
    b.stores("remove-file", made["full"], b"x")
    b.stores("remove-folder", root, b"full")
    b.no(8, *removals(made["full"], b"x"))
    for h in made.values():
        b.close(h)
        b.ok()
    b.check()
    assert free_in(b.line) == 41, b.line
    # the record's type decides, not the slot's; type 0 is no folder; a folder of one slot sticks after 7 alone
    root = b.fresh()
    for name in ("a", "b"):
        b.close(b.ok(b.create(root, name, FOLDER)))
    b.record(3, "type", 0)
    b.record(4, "blocks", 1)
    root = b.again()
    b.no(7, ("remove-folder", root, b"a"))
    b.no(9, ("remove-file", root, b"b"))
    b.no(19, ("remove-folder", root, b"b"))
    b.record(3, "links", 0)
    b.no(7, ("remove-folder", root, b"a"))
    b.record(3, "links", 1)
    b.remove_file(root, "a")
    b.ok()


def dots(b):
    """Order 6: a listing begins at slot 2 unless the dots are asked for; a place below is read as 2, and the next is 2 and the slots written."""
    root = b.fresh()
    empty = b.ok(b.create(root, "e", FOLDER))
    for at, asked, count, after in ((0, 0, 0, 2), (1, 0, 0, 2), (2, 0, 0, 2), (3, 0, 0, 3), (0, 1, 2, 2), (1, 255, 1, 2), (2, 1, 0, 2),
                                    (2 ** 64 - 1, 0, 0, 2 ** 64 - 1), (2 ** 64 - 1, 1, 0, 2 ** 64 - 1)):
        b.lists(empty, at, asked, 8192, count, after)
        b.lists(empty, at, asked, 264 * count, count, after)
    for name in "ab":
        b.close(b.ok(b.create(root, name)))
    for at, asked, room, count, after in ((0, 0, 8192, 3, 5), (0, 0, 264, 1, 3), (1, 0, 800, 3, 5), (1, 0, 791, 2, 4), (2, 0, 8192, 3, 5), (3, 0, 8192, 2, 5),
                                          (5, 0, 0, 0, 5), (0, 1, 8192, 5, 5), (1, 1, 264, 1, 2), (2, 7, 264, 1, 3), (4, 1, 8192, 1, 5)):
        b.lists(root, at, asked, room, count, after)
    b.no(20, *(("list", root, at, asked, 263) for at in (0, 1, 2, 4) for asked in (0, 1)))
    b.no(20, *(("list", empty, at, 1, 263) for at in (0, 1)))
    # a bad `..` is not read, nor a folder's end below slot 2
    b.dots(3, "type", 5)
    b.no(19, ("list", empty, 0, 1, 8192), ("list", empty, 1, 1, 264), ("entry", empty, 1, 264))
    b.lists(empty, 0, 0, 8192, 0, 2)
    b.lists(empty, 0, 1, 264, 1, 1)
    b.fresh()
    b.record(2, "blocks", 1)
    root = b.again()
    b.lists(root, 0, 0, 8192, 0, 2)
    b.lists(root, 0, 1, 8192, 1, 1)
    b.record(2, "blocks", 0)
    root = b.again()
    b.lists(root, 1, 0, 0, 0, 2)
    b.lists(root, 1, 1, 0, 0, 1)


def taken(b):
    root = b.fresh()
    b.no(14, create(root, b"a", FILE, ROOT_FILE), create(root, b"a", FOLDER, ROOT_FILE))


def links(b):
    root = b.fresh(32)
    for name, kind in (("a", FILE), ("c", FOLDER), ("d", FOLDER)):
        b.close(b.create(root, name, kind))
    b.record(3, "links", 65535)
    b.record(4, "links", 65535)
    root = b.again()
    a, c = b.find(root, "a"), b.find(root, "c")
    b.no(15, ("link", root, b"b", a), create(c, b"e", FOLDER), ("move", root, b"d", c, b"e"))
    b.no(6, ("move", root, b"c", c, b"e"))
    b.ok(b.create(c, "e"))


def table_full(b):
    """Eight holds of one owner, and the others still get theirs: eight each, 32 in all."""
    root = b.fresh()
    b.ok(b.create(root, "a"))
    first = {}
    for b.who in (1, 3, 2, 4):
        first[b.who] = b.ok(b.root())
        for _ in range(5 if b.who == 1 else 7):
            b.ok(b.find(first[b.who], "."))
        full = ("root",), ("find", first[b.who], b"a"), create(first[b.who], b"b")
        b.no(16, *full)
        b.no(11, ("find", first[b.who], b"b"))
        b.no(12, create(first[b.who], b"a"))
    b.check()
    b.ok()
    b.who = 3
    b.close(first[3])
    b.ok()
    for b.who in (1, 2, 4):
        b.no(16, ("root",))
    b.who = 3
    b.ok(b.root())
    b.no(16, ("root",))
    b.who = 1
    b.close(root)
    b.ok(b.root())


def last_stamp(b):
    """A table set from outside: the last stamps, a dirty row whose record lies past the longest file, and a type above 4. A moved node's type is looked
    at before any step, so it sticks also where the new slot would find no block."""
    root, files = b.fresh(), []
    for name in "ab":
        made = b.create(root, name)
        files.append(b.at.table.rows[b.at.table.holds[made[0]][0]].rec.file)
        b.close(made)
    b.close(root)
    rows = [(2 ** 25, 1, record(FOLDER, 2, 4, ROOT_FILE)), (4, 0, record(5, 1, 0, ROOT_FILE)), (5, 0, record(FOLDER, 2, 0, files[0])), (6, 0, record(FILE, 1, 0, files[1]))]
    b.table(table_bytes(rows, [(0, 1, 1), (1, 2, 1), (2, 3, 1), (3, 4, 1)], 2 ** 64 - 2))
    b.no(19, *takes_contents((1, 2)), *takes_contents((1, 2), 2 ** 64 - 1, b"a"), *every_mode((1, 2), 2 ** 64 - 1, 1))
    b.nameless(19, (1, 2), 0)
    b.no(17, ("sync",), ("remove-file", (0, 1), b"a"), ("close", (0, 1)))
    for at in (479, 1439, 2399, 3360):
        b.write((3, 4), at, b"ab" if at < 3360 else b"a")
        b.ok()
    b.no(17, ("move", (0, 1), b"a", (2, 3), b"c"))
    b.no(19, ("move", (0, 1), b"b", (2, 3), b"c"))
    b.ok(b.root())
    for b.who in (2, 1):
        b.no(16, ("root",))
    b.no(16, ("find", (0, 1), b"a"), create((0, 1), b"c"))


def no_space(b):
    root = b.fresh()
    a = b.ok(b.create(root, "a"))
    b.ok(b.create(root, "b"))
    c = b.ok(b.create(root, "c", FOLDER))
    b.ok(b.create(root, "d", FOLDER))
    b.link(root, "e", a)
    b.ok()
    b.no(17, ("link", root, b"f", a), create(root, b"f"), create(root, b"f", FOLDER))
    b.move(root, "a", c, "a")
    b.ok()
    b.no(17, ("move", root, b"b", c, b"b"))
    b.no(6, ("move", root, b"c", c, b"b"))
    b.check()
    b.ok()
    root = b.fresh()
    b.map(0, bytes(128), "clear the first map")
    b.superblock("groups", 4)
    b.length(META, 524288, "set the metadata file's length to 524,288")
    b.no(17, create(root, b"a"), create(root, b"a", FOLDER))


def stuck(b):
    root = b.fresh()
    b.close(b.create(root, "a"))
    b.record(3, "type", 5)
    root = b.again()
    b.no(19, ("find", root, b"a"), *removals(root, b"a"))
    b.record(3, "type", 0)
    a = b.ok(b.find(root, "a"))
    b.no(19, ("metadata", a), ("link", root, b"b", a), create(a, b"b"), ("move", root, b"a", root, b"a"))
    b.nameless(7, a)
    b.close(a)
    b.record(3, "type", FILE)
    b.record(3, "file", b"m" * 16)
    b.no(19, ("find", root, b"a"), *removals(root, b"a"))
    root = b.fresh()
    b.close(b.create(root, "a"))
    b.superblock("unused", 2 ** 32 - 1)
    b.no(19, ("remove-file", root, b"a"))
    b.map(0, bytes([0xF9]), "set the first map byte to 249 (0 free)")
    b.no(19, create(root, b"b"))
    b.map(0, bytes([0xFC]), "set the first map byte to 252 (2 free)")
    b.no(19, ("root",), ("find", root, b"."), create(root, b"b"))
    b.superblock("groups", 5)
    b.no(19, ("root",), ("find", root, b"a"), *removals(root, b"a"), create(root, b"b"))
    b.change((1, ROOT_FILE), 264 * 2 + 4, b"\xff", "set the first byte of slot 2's name to 255")
    b.no(19, *takes_name(root, b"b"), ("entry", root, 2, 264), ("list", root, 0, 0, 8192), ("list", root, 0, 1, 8192))
    b.fresh()
    b.record(2, "blocks", 3)
    root = b.again()
    b.no(19, *takes_name(root, b"b"), ("entry", root, 2, 264), ("list", root, 0, 0, 8192), ("list", root, 0, 1, 8192))
    b.call("set", root, 493, 0, 0, TIME, TIME, TIME)
    b.ok()
    b.arena(512 * 16)
    b.no(19, ("open",), ("root",), ("sync",), ("close", root), ("find", root, b"a"))


def contents(b):
    """What is written is what is read, and all other bytes stay: a file, a symlink and a socket."""
    root = b.fresh(32)
    root = b.socket(root, "socket")
    for name, kind in (("file", FILE), ("link", SYMLINK), ("socket", SOCKET)):
        h = b.ok(b.find(root, name) if kind == SOCKET else b.create(root, name, kind))
        b.reads(h, 0, 10, b"")
        b.stores("write", h, 0, b"abcdefghij")
        b.sized(h, 10)
        for at, room, want in ((0, 10, b"abcdefghij"), (3, 4, b"defg"), (8, 100, b"ij"), (9, 0, b""), (10, 1, b""), (2 ** 64 - 1, 8192, b"")):
            b.reads(h, at, room, want)
        b.stores("write", h, 2, b"XY")
        b.sized(h, 10)
        b.stores("write", h, 475, b"0123456789")
        b.reads(h, 0, 8192, b"abXYefghij" + bytes(465) + b"0123456789")
        holes(b, h)
        shrunk(b, h)
        b.close(h)
        b.ok()
        h = b.ok(b.find(root, name))
        b.sized(h, 1500)
        b.reads(h, 0, 1500, b"ab" + bytes(1498))
        b.close(h)


def holes(b, h):
    """A write far behind the end makes its own blocks alone; what is between reads as zeros, and a later write fills some of it."""
    b.stores("write", h, 480 * 4 - 2, b"far away")
    b.sized(h, 480 * 4 + 6)
    b.reads(h, 480, 480 * 4, b"56789" + bytes(480 * 3 - 7) + b"far away")
    long = bytes(range(1, 256)) * 2
    b.stores("write", h, 480 * 2 - 15, long)
    b.reads(h, 480 * 2 - 16, 512, b"\0" + long + b"\0")


def shrunk(b, h):
    """A shorter file has lost its tail: where it grows again there are zeros. An empty write beyond the end grows it too."""
    b.stores("resize", h, 480 * 4 + 6)
    b.stores("resize", h, 478)
    b.reads(h, 470, 100, b"\0\0\0\0\0" + b"012")
    b.stores("resize", h, 3000)
    b.reads(h, 474, 8192, b"\0" + b"012" + bytes(3000 - 478))
    b.stores("resize", h, 480)
    b.stores("resize", h, 2)
    b.stores("write", h, 1, b"")
    b.stores("write", h, 2, b"")
    b.sized(h, 2)
    b.stores("write", h, 1500, b"")
    b.sized(h, 1500)
    b.reads(h, 0, 8192, b"ab" + bytes(1498))


def held_on(b):
    """A node that was removed and is still held keeps its contents; the last close gives the blocks back."""
    root = b.fresh(32)
    a = b.ok(b.create(root, "a"))
    b.stores("write", a, 0, b"before")
    b.remove_file(root, "a")
    b.ok()
    b.reads(a, 0, 100, b"before")
    b.stores("write", a, 1000, b"after")
    b.reads(a, 998, 100, b"\0\0after")
    b.stores("resize", a, 3)
    b.reads(a, 0, 100, b"bef")
    b.sized(a, 3)
    b.close(a)
    b.check()
    assert free_in(b.line) == 26, b.line
    b.no(4, *takes_contents(a))


def free_in(line):
    return int(line.split(" ")[7])


def limits(b):
    """21, which comes before 22; 22; and the longest file."""
    root = b.fresh()
    a = b.ok(b.create(root, "a"))
    b.no(4, *takes_contents(NOBODY, 2 ** 64 - 1, b"a"))
    b.no(21, *takes_contents(root), *takes_contents(root, 2 ** 64 - 1, b"a"))
    b.no(22, ("write", a, 2 ** 64 - 1, b""), ("write", a, 2 ** 64 - 1, b"ab"), ("write", a, LIMIT, b"a"), ("write", a, LIMIT + 1, b""))
    b.no(22, ("resize", a, LIMIT + 1), ("resize", a, 2 ** 64 - 1))
    b.reads(a, 2 ** 64 - 1, 8192, b"")
    b.stores("write", a, LIMIT - 1, b"z")
    b.sized(a, LIMIT)
    b.reads(a, LIMIT - 3, 8192, b"\0\0z")
    b.reads(a, LIMIT, 8192, b"")
    b.stores("write", a, LIMIT, b"")
    b.no(22, ("write", a, LIMIT, b"a"))
    b.stores("resize", a, LIMIT)
    b.stores("resize", a, LIMIT - 1)
    b.reads(a, LIMIT - 3, 8192, b"\0\0")
    b.stores("resize", a, 0)


def device_full(b):
    """17 where a write needs a block more than there are; a longer file needs none, and a shorter one gives some back."""
    root = b.fresh()
    a = b.ok(b.create(root, "a"))
    for name in "bcde":
        b.ok(b.create(root, name))
    free = len(b.at.files.free())
    assert free == 2, free
    b.no(17, ("write", a, 0, bytes([9]) * (480 * free + 1)), ("write", a, 479, bytes([9]) * 482))
    b.stores("write", a, 480, bytes([9]) * 481)
    b.no(17, ("write", a, 0, b"a"), ("write", a, 479, b"ab"), ("write", a, 480 * (free + 1), b"a"))
    b.stores("write", a, 480, b"bc")
    b.stores("write", a, 0, b"")
    b.stores("resize", a, 480 * (free + 9))
    b.no(17, ("write", a, 480 * (free + 1) - 1, b"ab"))
    b.reads(a, 478, 5, b"\0\0bc\x09")
    b.stores("resize", a, 480 * free)
    b.stores("write", a, 0, b"a")
    b.no(17, ("write", a, 480 * free, b"a"))


def torn(b):
    """Damaged: a file that is longer or shorter than its size, by which rule 6 fails."""
    root = b.fresh()
    b.call("write", b.ok(b.create(root, "a")), 0, b"abcdefghij")
    b.close((1, 2))
    b.record(3, "size", 4)
    b.fails(6)
    a = b.ok(b.find(root, "a"))
    b.reads(a, 0, 100, b"abcd")
    b.write(a, 0, b"AB")
    b.fails(6)
    b.stores("write", a, 5, b"F")
    b.reads(a, 0, 100, b"ABcdeF")
    b.close(a)
    b.record(3, "size", 20)
    a = b.ok(b.find(root, "a"))
    b.reads(a, 0, 100, b"ABcdeF" + bytes(14))
    b.write(a, 15, b"")
    b.fails(6)
    b.stores("write", a, 20, b"")
    b.close(a)
    b.record(3, "size", 2 ** 64 - 1)
    a = b.ok(b.find(root, "a"))
    b.reads(a, 2 ** 64 - 5, 8192, bytes(4))
    b.reads(a, 4, 3, b"eF\0")
    b.write(a, 19, b"")
    b.fails(6)
    b.stores("resize", a, 6)
    b.reads(a, 0, 100, b"ABcdeF")


def no_contents(b):
    """19 where the file is not there, after 22; 21 for type 0, before both. (A type above 4: last_stamp.)"""
    root = b.fresh()
    a = b.ok(b.create(root, "a"))
    b.lost((1, b.at.table.row_of(3).rec.file))
    b.no(19, *takes_contents(a), *takes_contents(a, LIMIT - 1, b"a"), ("read", a, 2 ** 64 - 1, 8))
    b.no(22, *takes_contents(a, 2 ** 64 - 1, b"a")[1:])
    root = b.fresh()
    b.close(b.ok(b.create(root, "a")))
    b.record(3, "type", 0)
    a = b.ok(b.find(root, "a"))
    b.no(21, *takes_contents(a), *takes_contents(a, 2 ** 64 - 1, b"a"))


# ---- order 13

def ranges(b):
    """Each mode, inside a block and across blocks, at a file's end and behind it. Zeros make blocks, also a hole's; what is allocated has none."""
    root = b.fresh(32)
    a = b.ok(b.create(root, "a"))
    text = bytes(380) + bytes(range(1, 221))
    b.stores("write", a, 380, text[380:])
    free = free_in(b.lines[-1])
    for mode, start, length in ((INSERT, 384, 128), (INSERT, 0, 640), (COLLAPSE, 128, 640), (COLLAPSE, 384, 128), (INSERT, 512, 128), (COLLAPSE, 384, 256),
                                (ZERO_KEEP, 390, 30), (PUNCH, 450, 2000), (ZERO, 440, 20), (ZERO, 470, 20), (ZERO, 600, 0), (ALLOCATE, 590, 60)):
        text = b.ranges(a, mode, start, length, text)
    b.sized(a, 650)
    b.stores("resize", a, 480 * 4)
    text = text.ljust(480 * 4, b"\0")
    assert free_in(b.lines[-1]) == free, b.line
    text = b.ranges(a, PUNCH, 480 * 2 - 1, 2, text)
    assert free_in(b.lines[-2]) == free - 1, b.line
    text = b.ranges(a, COLLAPSE, 256, 128, text)
    assert free_in(b.lines[-2]) == free - 2, b.line
    b.ranges(a, INSERT, 1024, 128, text)
    marks(b, a)
    others(b, root)


def marks(b, a):
    """What sets a length marks the row, an empty range too; what lies behind the size, or keeps it, changes nothing."""
    b.call("sync")
    before, size = b.at.sums(), 480 * 4
    for mode, start, length, flags in ((ALLOCATE, 0, size, 0), (ALLOCATE, size, 9, 1), (ALLOCATE, LIMIT, 0, 255), (PUNCH, size, 128, 0), (ZERO_KEEP, LIMIT, 0, 1), (ZERO, size, 0, 0), (PUNCH, 0, 0, 0)):
        b.does(fallocate(a, mode, start, length, flags))
        assert b.at.sums() == before and not b.dirty(a), b.line
    for mode, start, length, flags, marked in ((PUNCH, 0, 9, 1, 0), (ZERO, 0, size, 1, 0), (COLLAPSE, 128, 0, 1, 1), (INSERT, 128, 0, 1, 1), (ZERO, size + 1, 0, 1, 1), (ALLOCATE, 0, size + 2, 2, 1)):
        b.stores("fallocate", a, mode, flags, start, length)
        assert b.dirty(a) == marked, (b.line, mode, length)
        b.call("sync")
    b.sized(a, size + 2)


def others(b, root):
    """Another file stays, and a node without a name is taken as any other."""
    a, c = b.ok(b.find(root, "a")), b.ok(b.create(root, "c"))
    b.stores("write", c, 0, b"another")
    b.remove_file(root, "a")
    b.ok()
    b.stores(*fallocate(a, INSERT, 0, 640))
    b.stores(*fallocate(a, COLLAPSE, 128, 512))
    b.reads(c, 0, 100, b"another")


def bad_ranges(b):
    """The order of the reasons: 4, 21, 22 for the end, 6 by start, end and alignment, 22 for what grows."""
    root = b.fresh()
    a, link = b.ok(b.create(root, "a")), b.ok(b.create(root, "l", SYMLINK))
    b.stores("resize", a, 300)
    b.no(4, *every_mode(NOBODY, 2 ** 64 - 1, 1))
    b.no(21, *every_mode(root, 2 ** 64 - 1, 1), *every_mode(link, 1, LIMIT, (ZERO, INSERT)))
    b.no(22, *every_mode(a, LIMIT, 1), *every_mode(a, 2 ** 64 - 1, 2 ** 64 - 1, (ALLOCATE, INSERT)), fallocate(a, ALLOCATE, LIMIT + 1, 0, 1))
    for start, length in ((300, 128), (384, 128), (LIMIT, 0), (1, 128), (128, 1), (64, 64)):
        b.no(6, fallocate(a, INSERT, start, length))
    for start, length in ((128, 172), (0, 300), (256, 128), (LIMIT, 0), (1, 128), (128, 1), (64, 64)):
        b.no(6, fallocate(a, COLLAPSE, start, length))
    b.stores(*fallocate(a, ALLOCATE, 0, LIMIT - 128))
    b.no(6, fallocate(a, INSERT, LIMIT - 127, 0), fallocate(a, INSERT, 1, 256))
    b.no(22, fallocate(a, INSERT, 0, 256), fallocate(a, INSERT, 128, LIMIT - 255))
    b.no(17, fallocate(a, INSERT, 0, 128), fallocate(a, COLLAPSE, 0, 128), fallocate(a, ZERO, 0, LIMIT), fallocate(a, PUNCH, 1, LIMIT - 1))
    b.stores(*fallocate(a, COLLAPSE, LIMIT - LIMIT % 128 - 256, 0))


def ranges_full(b):
    """17 where zeros or a copy need a block more than there are, a collapse too: it makes blocks in holes before it gives any back."""
    root = b.fresh(24)
    a, rest = b.ok(b.create(root, "a")), b.ok(b.create(root, "b"))
    b.stores("write", a, 479, b"ab")
    b.stores("resize", a, 480 * 6)
    free = free_in(b.line) - 2
    b.stores(*fallocate(rest, ZERO, 0, 480 * free))
    b.no(17, *every_mode(a, 480, 480 * 4, (PUNCH, ZERO, ZERO_KEEP)), fallocate(a, ZERO, 480 * 7 - 1, 960))
    b.no(17, fallocate(a, COLLAPSE, 0, 128), fallocate(a, COLLAPSE, 640, 640), fallocate(a, INSERT, 1920, 128), fallocate(a, INSERT, 384, 1024))
    b.stores(*fallocate(a, PUNCH, 480 * 4 - 100, 300))
    assert free_in(b.line) == 0, b.line
    b.no(17, fallocate(a, PUNCH, 479, 480 * 4), fallocate(a, INSERT, 128, 128), fallocate(a, COLLAPSE, 128, 128))
    b.stores(*fallocate(a, ALLOCATE, 480 * 6, 480))
    b.stores("resize", a, 960)
    b.stores(*fallocate(rest, ZERO, 480 * free, 960))
    for mode, start, length in ((COLLAPSE, 128, 256), (INSERT, 384, 256), (ZERO, 0, 960), (PUNCH, 900, 2000)):
        b.stores(*fallocate(a, mode, start, length))
    b.no(17, fallocate(a, INSERT, 0, 128))
    b.stores("resize", rest, 480 * (free - 2))
    b.stores("write", a, 100, b"moved by falling pieces")
    b.stores(*fallocate(a, INSERT, 0, 640))
    b.reads(a, 738, 27, b"\0\0moved by falling pieces\0\0")


def ranges_torn(b):
    """Damaged: 19 for a file that is shorter than its size, but 17 where a piece before finds no block; a longer one is cut. A size past the limit: 22, 19
    or 17."""
    root = b.fresh(20)
    b.stores("write", b.ok(b.create(root, "a")), 900, b"abc")
    rest = b.ok(b.create(root, "b"))
    b.close((1, 2))
    b.record(3, "size", 1300)
    a = b.ok(b.find(root, "a"))
    b.no(19, fallocate(a, COLLAPSE, 0, 128), fallocate(a, COLLAPSE, 0, 1152), fallocate(a, COLLAPSE, 0, 1280), fallocate(a, INSERT, 0, 128), fallocate(a, INSERT, 1280, 128))
    b.does(fallocate(rest, ZERO, 0, 480 * len(b.at.files.free())))
    b.no(17, fallocate(a, COLLAPSE, 0, 128))
    b.no(19, fallocate(a, COLLAPSE, 896, 128), fallocate(a, INSERT, 0, 128))
    b.does(fallocate(a, PUNCH, 490, 400))
    b.close(a)
    b.record(3, "size", 490)
    a = b.ok(b.find(root, "a"))
    b.fails(6)
    b.stores(*fallocate(a, INSERT, 384, 0))
    b.sized(a, 490)
    for size in (LIMIT + 1, 2 ** 64 - 1):
        b.close(a)
        b.record(3, "size", size)
        a = b.ok(b.find(root, "a"))
        b.no(22, fallocate(a, INSERT, 0, 0), fallocate(a, INSERT, 128, 128))
        b.no(19, fallocate(a, COLLAPSE, 512, 128))
        b.no(17, fallocate(a, COLLAPSE, 128, 0), fallocate(a, PUNCH, 0, LIMIT))


def no_ranges(b):
    """Damaged: 19 for a file that is not there, unless nothing looks for it; 21 for type 0. (A type above 4: last_stamp.)"""
    root = b.fresh()
    b.close(b.ok(b.create(root, "a")))
    b.record(3, "size", 1000)
    a = b.ok(b.find(root, "a"))
    b.lost((1, b.at.table.row_of(3).rec.file))
    b.no(19, *every_mode(a, 128, 0, (COLLAPSE, INSERT)), *every_mode(a, 0, 128, range(1, 6)), fallocate(a, ALLOCATE, 0, 1001), fallocate(a, ZERO, 1001, 0))
    b.does(*every_mode(a, 1000, 0, range(4)), *every_mode(a, 128, 0, range(4)), fallocate(a, ALLOCATE, 0, 1001, 1), fallocate(a, PUNCH, 1000, 128))
    root = b.fresh()
    b.close(b.ok(b.create(root, "a")))
    b.record(3, "type", 0)
    b.no(21, *every_mode(b.ok(b.find(root, "a")), 2 ** 64 - 1, 1, (ALLOCATE, INSERT)))


def carried(b):
    """Order 2: a folder goes to another folder and its `..` with it; into itself or below it can't go. The pair passes all along."""
    root = b.fresh(64)
    a = b.ok(b.create(root, "a", FOLDER))
    c = b.ok(b.create(root, "c", FOLDER))
    d = b.ok(b.create(a, "d", FOLDER))
    e = b.ok(b.create(d, "e", FOLDER))
    b.leads(d, 3)
    b.moves(a, "d", c, "d")
    b.leads(d, 4)
    b.leads(e, 5)
    below = (("move", c, b"d", d, b"x"), ("move", c, b"d", e, b"x"), ("move", root, b"c", c, b"x"), ("move", root, b"c", e, b"x"),
             ("move", c, b"d", d, b"e"), ("move", root, b"c", d, b"e"))
    b.no(6, *below)
    for h in (a, d):
        b.close(h)
    b.no(6, below[1], below[3])
    b.no(11, ("move", c, b"none", e, b"x"))
    b.moves(root, "a", e, "a")
    b.moves(root, "c", root, "f")
    a, d = b.ok(b.find(e, "a")), b.ok(b.find(c, "d"))
    b.leads(a, 6)
    b.ok(b.create(root, "file"))
    b.moves(root, "file", a, "file")
    b.no(13, ("move", root, b"f", e, b"a"))
    b.no(7, ("move", root, b"f", a, b"file"))
    b.ok(b.create(root, "g", FOLDER))
    b.moves(e, "a", root, "g")
    b.leads(a, 2)
    b.moves(d, "e", a, "e")
    b.moves(c, "d", e, "d")
    b.moves(a, "e", root, "e")
    b.leads(d, 6)
    b.remove_folder(root, "f")
    b.ok()
    b.no(8, ("move", root, b"e", c, b"x"))
    b.check()
    b.ok()


def no_way_up(b):
    """Damaged: the climb from the target sticks. What is no folder, or stays in its folder, asks for no climb."""
    def again():
        root = b.fresh(48)
        for name in "abcd":
            b.close(b.ok(b.create(root, name, FOLDER)))
        b.close(b.ok(b.create(root, "file")))
        return root

    def sticks():
        root = b.again()
        b.no(19, ("move", root, b"d", b.find(root, "a"), b"x"), ("move", root, b"d", b.find(root, "a"), b"d"))
        return root

    def goes(root, *args):
        b.move(root, *args)
        b.ok()

    again()
    b.dots(3, "id", 4)
    b.dots(4, "id", 3)
    root = sticks()
    b.no(6, ("move", root, b"b", b.find(root, "a"), b"x"))
    goes(root, "file", b.find(root, "a"), "x")
    goes(root, "d", root, "e")
    b.fails(8)
    for id in (3, 0, 7, 8, 4096, 2 ** 32 - 1):
        again()
        b.dots(3, "id", id)
        sticks()
    again()
    b.dots(3, "type", 5)
    sticks()
    again()
    b.dots(3, "id", 4)
    b.record(4, "type", SYMLINK)
    sticks()
    again()
    b.dots(3, "id", 4)
    b.record(4, "file", b"m" * 16)
    sticks()
    root = again()
    b.dots(6, "id", 5)
    b.dots(6, "type", 3)
    b.moves(root, "d", b.find(root, "a"), "d")
    b.dots(3, "type", 1)
    goes(root, "b", b.find(root, "a"), "b")
    b.fails(6)


def masters(b):
    """The folders a/b with a file (5), and w; links from root and from w."""
    root = b.fresh(96)
    a = b.ok(b.create(root, "a", FOLDER))
    low = b.ok(b.create(a, "b", FOLDER))
    b.close(b.ok(b.create(low, "m")))
    w = b.ok(b.create(root, "w", FOLDER))
    for name, target in (("rel", "a/b/m"), ("l", "."), ("r", "/"), ("self", "self"), ("bad", "a//b"), ("lost", "a/none"), ("chain", "w/up/b")):
        b.symlink(root, name, target)
    for name, target in (("abs", "/a/b"), ("up", "../a")):
        b.symlink(w, name, target)
    b.close(b.ok(b.create(root, "empty", SYMLINK)))
    for h in (a, low, w):
        b.close(h)
    return root


def paths(b):
    """Order 7: a walk by path, without links and through them."""
    root = masters(b)
    arrives(b, root)
    stopped(b, root)
    rests(b, b.again())
    link_folder(b)


def link_folder(b):
    """A relative target starts at the link's folder, and not at root or where the walk began."""
    root = b.fresh()
    a = b.ok(b.create(root, "a", FOLDER))
    b.symlink(a, "l", ".")
    b.walks(root, "a/l", 3, ".")
    b.walks(a, "l", 3, ".")


def arrives(b, root):
    """Each walk with the room that it needs, and with more."""
    for path, id in (("a", 3), ("a/b/m", 5), ("/a/b/m", 5), ("./a/../a/b", 4), ("/", 2), ("..", 2), ("/..", 2), ("a/b/..", 3)):
        b.walks(root, path, id, room=0)
    for path, id, targets in (("rel", 5, "a/b/m"), ("w/abs", 4, "/a/b"), ("w/abs/m", 5, "/a/b"), ("w/up/b/m", 5, "../a"), ("/w/up", 3, "../a"),
                              ("chain", 4, "w/up/b../a"), ("chain/m", 5, "w/up/b../a"), ("r/a/b", 4, "/"), ("l/r/l/rel", 5, "./.a/b/m")):
        b.walks(root, path, id, targets)
        b.walks(root, path, id, targets, len(targets))
    file = b.ok(b.find(root, "rel"))
    b.walks(file, "/", 2)
    b.walks(file, "/rel", 5, "a/b/m")
    b.close(file)
    b.who = 2
    b.walks(b.ok(b.root()), "chain/m", 5, "w/up/b../a")
    b.who = 1
    b.check()
    b.ok()


def stopped(b, root):
    """What refuses a walk, and which targets stand in the link buffer then."""
    for path in ("", "//", "/a/", "a/", "a//b", "//a", "none/", "self//"):
        b.stops(5, root, path)
    for path, targets in (("bad", "a//b"), ("l/bad/x", ".a//b"), ("empty", ""), ("l/empty", ".")):
        b.stops(5, root, path, targets)
    for path, targets in (("a/b/m/x", ""), ("rel/x", "a/b/m"), ("rel/..", "a/b/m")):
        b.stops(7, root, path, targets)
    for path, targets in (("none", ""), ("a/none/x", ""), ("lost", "a/none"), ("w/up/x", "../a"), ("a/m", "")):
        b.stops(11, root, path, targets)
    b.stops(10, root, "a/" + "n" * 256 + "/x")
    b.stops(11, root, "l/" + "n" * 255, ".")
    for path, targets, room in (("rel", "", 4), ("l/rel", ".", 5), ("chain", "w/up/b", 9), ("l", "", 0), ("l/l/l", "..", 2)):
        b.stops(20, root, path, targets, room)
    b.walks(root, "/".join("l" * 8), 2, "." * 8)
    b.stops(23, root, "/".join("l" * 9), "." * 8)
    b.stops(23, root, "/".join("l" * 9), "." * 8, 8)
    b.stops(23, root, "self", "self" * 8)
    b.stops(20, root, "self", "self" * 7, 31)
    file = b.ok(b.walk(root, "rel"))
    b.stops(7, file, "x")
    gone = b.ok(b.create(root, "gone", FOLDER))
    b.remove_folder(root, "gone")
    b.ok()
    b.stops(8, gone, "..")
    b.walks(gone, ".", 17)
    for _ in range(5):
        b.ok(b.root())
    for path, targets in (("/", ""), ("a/b", ""), ("rel", "a/b/m")):
        b.stops(16, root, path, targets)
    for reason, path, targets, room in ((5, "bad", "a//b", 9), (7, "rel/x", "a/b/m", 9), (11, "lost", "a/none", 9), (20, "rel", "", 4), (23, "self", "self" * 8, 32)):
        b.stops(reason, root, path, targets, room)
    b.close(gone)


def rests(b, root):
    """Eight links, each with a rest of its text to go on with; and what sticks on the way."""
    for k in range(1, 9):
        b.symlink(root, f"k{k}", f"k{k + 1}/a/.." if k < 8 else "a/..")
    targets = "".join(f"k{k}/a/.." for k in range(2, 9)) + "a/.."
    b.walks(root, "k1/a/b/m", 5, targets)
    b.stops(23, root, "k1/l/a", targets)
    b.stops(11, root, "k1/x", targets)
    b.record(7, "size", 3)
    b.walks(root, "rel", 4, "a/b")
    b.record(7, "size", 7)
    b.stops(5, root, "rel", "a/b/m\0\0")
    b.record(5, "type", 5)
    b.stops(19, root, "a/b/m")
    b.record(5, "type", 0)
    b.stops(19, root, "a/b/m/x")
    b.no(19, ("metadata", b.ok(b.walk(root, "a/b/m"))))
    # a link's file is missed by its opening; of an open link by the reading, also of no bytes
    b.record(8, "file", b"m" * 16)
    b.stops(19, root, "l")
    h = b.ok(b.find(root, "empty"))
    b.lost((1, b.at.table.row_of(16).rec.file))
    b.stops(19, root, "r/empty", "/")
    b.close(h)
    b.stops(19, root, "empty")


def inventories(b):
    """Order 10: a line for each name, of the stored image alone; 20 by one byte, and 18 for what is only in the table."""
    root = b.fresh(96)
    b.delivers(b"")
    b.delivers(b"", 0)
    text = drawings(b, root)
    b.delivers(text)
    b.delivers(text, len(text))
    for room in (len(text) - 1, 1, 0):
        b.not_delivered(20, room)
    stored_only(b, text)
    old_names(b, b.again())
    long_paths(b)


def drawings(b, root):
    """Folders in folders, a node of three names, a symlink and bytes that are escaped; and the text, with each folder's contents right after its line."""
    sans = b.ok(b.create(root, "sans", FOLDER))
    b.close(b.ok(b.create(root, "read me")))
    bold = b.ok(b.create(sans, "bold", FOLDER))
    a = b.ok(b.create(bold, "A"))
    b.close(b.ok(b.create(sans, "none", FOLDER)))
    b.symlink(sans, "a", "bold/A")
    for folder, name in ((sans, "A"), (root, "again")):
        b.link(folder, name, a)
        b.ok()
    for name in (b"\x01\n\x1f ", b"!~\\\x7f\\5c", "Ж\u00ad\u0080".encode()):
        b.close(b.ok(b.create(bold, name)))
    for h in (sans, bold, a):
        b.close(h)
    return (b"3 2 4 /sans\n5 2 2 /sans/bold\n6 1 3 /sans/bold/A\n9 1 1 /sans/bold/\\01\\0a\\1f\\20\n10 1 1 /sans/bold/!~\\5c\\7f\\5c5c\n"
            b"11 1 1 /sans/bold/" + "Ж\u00ad\u0080".encode() + b"\n7 2 2 /sans/none\n8 3 1 /sans/a\n6 1 3 /sans/A\n4 1 1 /read\\20me\n6 1 3 /again\n")


def stored_only(b, text):
    """A size that is not stored yet and a removed node that is open are the table's: 18 until sync and close. Modes and times aren't looked at."""
    root = b.ok(b.root())
    h = b.ok(b.find(root, "read me"))
    b.call("set", h, 511, 1, 2, TIME, TIME, TIME)
    b.delivers(text)
    b.write(h, 0, b"hello")
    b.not_delivered(18)
    b.call("sync")
    b.delivers(text)
    b.remove_file(root, "read me")
    b.ok()
    b.not_delivered(18)
    b.close(h)
    # the last slot is in the place of the one that went
    text = text.replace(b"4 1 1 /read\\20me\n", b"")
    b.delivers(text)
    sans = b.ok(b.find(root, "sans"))
    none = b.ok(b.find(sans, "none"))
    b.remove_folder(sans, "none")
    b.ok()
    b.not_delivered(18)
    b.close(none)
    b.ok()
    b.inventory()
    b.ok()


def old_names(b, root):
    """A stored slash is not escaped, so that two lines may have one path; a stored socket has a line as a file has."""
    root = b.socket(root, "old")
    b.change((1, ROOT_FILE), 264 * 3 + 4, b"sans/A\0", "set the name in slot 3 of the root to sans/A")
    b.inventory()
    b.ok()
    text = b.at.inventory(model.OUTPUT)
    assert text.count(b"6 1 3 /sans/A\n") == 2 and text.endswith(b"\n4 4 1 /old\n"), text


def long_paths(b):
    """A text that just fits the longest output, most of it paths of folders in folders; with a name more it is 20."""
    at = root = b.fresh(32)
    for k in range(4):
        at = b.ok(b.create(at, bytes([k + 1]) * 255, FOLDER))
    last = b.ok(b.create(root, bytes([5]) * 165 + b"a"))
    text = b"".join(b"%d 2 %d %s\n" % (k + 3, 2 + (k < 3), b"".join(b"/" + b"\\%02x" % (n + 1) * 255 for n in range(k + 1))) for k in range(4))
    b.delivers(text + b"7 1 1 /" + b"\\05" * 165 + b"a\n")
    assert b.line.startswith("inventory ok 8192 "), b.line
    b.link(root, "b", last)
    b.ok()
    b.not_delivered(20)


def full_paths(b):
    """Order 14: a folder's path from root, and what refuses it."""
    deep(b)
    renamed(b)
    root, h = three(b)
    lost_names(b, root, h)
    around(b, h)
    not_asked(b, h)


def deep(b):
    """Folders in folders, over 32 of them: what is written at a time is 32 names at most."""
    at, path = b.fresh(128), b""
    b.just(at, b"/")
    b.named(at, b"/")
    for n in range(36):
        above, name = at, b"%c" % (97 + n % 26)
        at, path = b.ok(b.create(above, name, FOLDER)), path + b"/" + name
        b.close(above)
        if n in (0, 1, 30, 31, 32, 35):
            b.just(at, path)
            b.named(at, path)
    b.walks(at, path.decode(), 38)
    b.check()
    b.ok()


def renamed(b):
    """The names are those of now; 7 for a file, a symlink, 8 for a removed folder, 4 for another's handle."""
    root = b.fresh(64)
    a, w = (b.ok(b.create(root, name, FOLDER)) for name in ("a", "w"))
    d = b.ok(b.create(a, "ß", FOLDER))
    e = b.ok(b.create(d, "e", FOLDER))
    b.just(e, "/a/ß/e".encode())
    b.moves(a, "ß", w, "d")
    b.just(e, b"/w/d/e")
    b.moves(root, "w", a, "...")
    b.just(e, b"/a/.../d/e")
    for name, kind in (("file", FILE), ("link", SYMLINK)):
        h = b.ok(b.create(root, name, kind))
        b.nameless(7, h, 0)
        b.remove_file(root, name)
        b.nameless(7, h, 0)
        b.close(h)
    b.remove_folder(d, "e")
    b.ok()
    b.nameless(8, e, 0)
    b.who = 2
    b.nameless(4, d)
    b.just(b.ok(b.walk(b.ok(b.root()), "/a/.../d")), b"/a/.../d")
    b.who = 1
    b.check()
    b.ok()


def three(b):
    """The folders a (4), b (6) in it and one with the longest name (8) in that, a file before each; root and the last one are open."""
    at = b.fresh(32)
    for name in ("a", "b", LONGEST):
        b.close(b.ok(b.create(at, "before")))
        above, at = at, b.ok(b.create(at, name, FOLDER))
        b.close(above)
    b.close(b.ok(b.create(at, "in it")))
    b.just(at, b"/a/b/" + LONGEST)
    return b.ok(b.root()), at


def put(b, id, k, place, data):
    """Bytes of slot k of this node's file, from outside; what stood there."""
    b.at.is_sound()
    file = 1, b.at.files.read(META, 128 * id + 80, 16)
    old = b.at.files.read(file, 264 * k + place, len(data))
    b.change(file, 264 * k + place, data, f"slot {k} of node {id} gets {data.hex()} at {place}")
    b.at.is_sound()
    return old


def number(n):
    return n.to_bytes(4, "little")


def lost_names(b, root, h):
    """Damaged: no name, none that is one, no folder above. 19 also where there is no room."""
    parents = (0, 1, 3, 4, 8, 11, 4096)
    for id, k, place, data in ((6, 3, 0, number(9)), (6, 3, 4, b"\xff"), (6, 3, 4 + 255, b"n"), (4, 3, 5, b"\xc3\0"), (6, 3, 260, number(5)), (6, 2, 260, number(5)), (2, 2, 260, number(2 ** 31)),
                               *((8, 1, 0, number(other)) for other in parents), (8, 1, 260, number(5)), (4, 1, 0, number(8))):
        old = put(b, id, k, place, data)
        b.nameless(19, h)
        b.nameless(19, h, 0)
        put(b, id, k, place, old)
    old = model.Record.read(b.at.files.read(META, 128 * 6, model.RECORD))
    for field, values in (("type", (FILE, 0, 5)), ("blocks", (0, 1, 2, 3)), ("file", (b"m" * 16,))):
        for value in values:
            b.record(6, field, value)
            b.nameless(19, h, 0)
        b.record(6, field, getattr(old, field))
    b.superblock("groups", 5)
    b.nameless(19, h)
    b.just(root, b"/")
    b.superblock("groups", 1)
    b.close(root)
    b.record(2, "type", FILE)
    b.nameless(19, h)
    b.record(2, "type", FOLDER)


def around(b, h):
    """Parents that go round, each with its name: the way up ends after 4,096 of them."""
    for top, below in ((4, 8), (8, 8)):
        above, inside = put(b, top, 1, 0, number(below)), put(b, below, 2, 0, number(top))
        b.nameless(19, h)
        b.nameless(19, h, 0)
        put(b, top, 1, 0, above)
        put(b, below, 2, 0, inside)


def not_asked(b, h):
    """What a path does not ask for: other names, types below 5, names of dots, its own number and slots, links above, slots after the name. A stored name is written whatever it is,
    and of two the first."""
    b.close(h)
    b.record(8, "blocks", 0)
    h = b.ok(b.walk(b.ok(b.root()), b"/a/b/" + LONGEST))
    b.change(META, 129, b"\xff", "nodes 8 to 15 are free")
    put(b, 6, 2, 4, b"\xff")
    put(b, 6, 2, 260, number(0))
    put(b, 8, 1, 4, b"\xff")
    put(b, 8, 1, 260, number(1))
    put(b, 6, 3, 260, number(4))
    b.record(6, "links", 0)
    b.record(6, "blocks", 9)
    b.just(h, b"/a/b/" + LONGEST)
    for name in (b"x/y", b"/", b"..", b""):
        put(b, 6, 3, 4, name + b"\0")
        b.just(h, b"/a/b/" + name)
    put(b, 6, 2, 0, number(8))
    b.nameless(19, h)
    put(b, 6, 2, 4, b"z\0")
    b.just(h, b"/a/b/z")
    b.fails(3)


def menders(b):
    """Order 11: what a host that went down has left is mended, where no hold is live."""
    b.fresh()
    b.no(24, ("mend",))
    b.died()
    b.idle()
    after_death(b, family(b))
    in_use(b)
    wrong_records(b)
    unmended(b)
    no_name(b)
    second_block(b)
    second_group(b)


def family(b):
    """The folders d (3) with e (4) and a file of two names (5), and n (7), empty; a symlink (6) in the root. The handles by name."""
    made = {"root": b.fresh(48)}
    for folder, name, kind in (("root", "d", FOLDER), ("d", "e", FOLDER), ("d", "f", FILE), ("root", "s", SYMLINK), ("root", "n", FOLDER)):
        made[name] = b.ok(b.create(made[folder], name, kind))
    b.link(made["root"], "g", made["f"])
    b.ok()
    return made


# its inventory
FAMILY = b"3 2 3 /d\n4 2 2 /d/e\n5 1 2 /d/f\n6 3 1 /s\n7 2 2 /n\n5 1 2 /g\n"


def after_death(b, made):
    """Sizes that were not stored: no name and no byte is lost. Nodes that were removed while they were held: they are gone, with the blocks of their files."""
    b.write(made["f"], 470, b"across two blocks")
    b.write(made["s"], 0, b"d/f")
    b.died()
    b.fails(6)
    b.not_delivered(18, 0)
    b.mends()
    b.delivers(FAMILY)
    root = b.ok(b.root())
    b.walks(root, "s", 5, "d/f")
    f = b.ok(b.find(root, "g"))
    b.reads(f, 468, 100, b"\0\0across two blocks")
    for name, kind in (("a", FILE), ("b", SYMLINK), ("c", FOLDER)):
        b.ok(b.create(root, name, kind))
        b.call("remove-folder" if kind == FOLDER else "remove-file", root, name.encode())
        b.ok()
    b.stores("resize", f, 480)
    b.died()
    b.fails(6)
    # a node that goes may have any count, and `..` of a folder that goes may lead anywhere
    b.record(8, "links", 7)
    b.dots(10, "id", 99)
    b.mends()
    b.delivers(FAMILY)


def in_use(b):
    """24 for any hold, whoever's; where the last one is closed there is nothing to mend."""
    mine = b.ok(b.root())
    b.who = 4
    other = b.ok(b.find(b.ok(b.root()), "d"))
    b.close((1, 2))
    b.who = 1
    b.close(mine)
    b.no(24, ("mend",))
    b.record(3, "links", 9)
    b.no(24, ("mend",))
    b.record(3, "links", 3)
    b.who = 4
    b.close(other)
    b.who = 1
    b.idle()


def wrong_records(b):
    """Links come from the slots and sizes from the files, one wrong or all of them; a folder's size is not looked at."""
    right = b.at.sums()
    wrong = (2, "links", 0), (2, "links", 65535), (3, "links", 2), (5, "links", 0), (6, "links", 2), (5, "size", 0), (5, "size", 2 ** 64 - 1), (6, "size", 4)
    for damage in wrong:
        b.record(*damage)
        b.mends()
    for damage in wrong:
        b.record(*damage)
    b.mends()
    assert b.at.sums() == right, (b.at.sums(), right)
    b.record(7, "size", 99)
    b.idle()


class Family:
    """Damages of the family's image, none of them done yet."""

    def __init__(self, b):
        self.b, self.d, self.e, self.root = b, *((1, b.at.files.read(META, 128 * id + 80, 16)) for id in (3, 4, 2))

    def slot(self, file, k, place, data):
        return lambda: self.b.change(file, 264 * k + place, data, f"change slot {k}")

    def names(self, file, k, id, kind=FOLDER):
        """Slot k of that folder names another node."""
        return lambda: [self.slot(file, k, place, n.to_bytes(4, "little"))() for place, n in ((0, id), (260, kind))]

    def record(self, *damage):
        return lambda: self.b.record(*damage)

    def superblock(self, *damage):
        return lambda: self.b.superblock(*damage)

    def length(self, file, length):
        return lambda: self.b.length(file, length, f"make a file {length} bytes long")

    def bits(self, first, second, unused):
        """The map's first two bytes, and the unused ids by them."""
        return lambda: (self.b.map(0, bytes([first, second]), "change the map"), self.b.superblock("unused", unused))

    def stray(self):
        """A file that is no node's."""
        k, file = self.b.at.files.free()[0], (1, b"x" * 16)
        self.b.poke_block(k, bytes(512), block(1, file, 0))

    def own_child(self):
        """d names itself, and so does its `..`; e is the root's."""
        for file, k, id in ((self.d, 2, 3), (self.d, 1, 3), (self.root, 2, 4), (self.e, 1, 2)):
            self.names(file, k, id)()

    def by_rule(self):
        """What the mender asks for, by the rule that fails."""
        yield 3, (self.superblock("magic", 1), self.superblock("groups", 5), self.superblock("blocks", 2048), self.superblock("unused", 1017),
                  self.superblock("unused", 1015), self.length(META, 131073))
        yield 4, (self.bits(1, 255, 1017), self.bits(2, 255, 1017), self.bits(4, 255, 1017))
        yield 5, (self.record(5, "type", 0), self.record(5, "type", 5), self.record(2, "type", FILE), self.record(6, "file", ROOT_FILE),
                  self.record(6, "file", b"m" * 16), self.bits(0, 254, 1015), self.bits(64, 255, 1017), self.stray)
        yield 6, (self.record(3, "blocks", 5), self.record(4, "blocks", 1), self.length(self.d, 264 * 4 + 1), self.names(self.d, 0, 2), self.slot(self.d, 0, 4, b","),
                  self.slot(self.d, 1, 6, b","), self.names(self.d, 1, 2, FILE), self.names(self.d, 3, 5, SYMLINK), self.names(self.d, 3, 99, FILE), self.names(self.d, 3, 1),
                  *(self.slot(self.d, 3, 4, name) for name in (b"e", b".", b"\xff", b"\0")))
        # n is named by none then, which would do: it is empty. But root is named, e is named twice, or d, which is not empty, is named by none
        yield 7, (self.names(self.root, 4, 2), self.names(self.root, 4, 4), self.names(self.root, 2, 5, FILE))
        # `..` of the root, of e, of d leads elsewhere
        yield 8, (self.names(self.root, 1, 3), self.names(self.e, 1, 2), self.names(self.e, 1, 99), self.names(self.d, 1, 3), self.names(self.d, 1, 4), self.own_child)


def unmended(b):
    """18 for each thing that the mender asks for, one at a time."""
    for rule, damages in Family(b).by_rule():
        for damage in damages:
            b.spoilt(damage, rule)
    b.idle()


def no_name(b):
    """An empty folder that no slot names goes, though nobody has removed it; a file has the names that it has."""
    family = Family(b)
    family.names(family.root, 4, 5, FILE)()
    b.fails(7)
    b.mends()
    b.delivers(FAMILY.replace(b"5 1 2", b"5 1 3").replace(b"7 2 2 /n", b"5 1 3 /n"))


def second_block(b):
    """A record whose second block is absent, as no call leaves it: 17 where it has changed and no block is free, but a file that goes gives some back."""
    root = b.fresh()
    made = [b.ok(b.create(root, name)) for name in "abcd"]
    b.call("create", root, b"e", FILE, 420, (0, 0), bytes(16))
    # record 7 has its last time, its file's name and what follows in the metadata file's block 2: zeros
    k = b.at.files.place(2, META, 2)
    b.poke_block(k, b.at.files.blocks[k], bytes(512))
    b.at.is_sound()
    for n in range(len(b.at.files.free())):
        b.write(made[1], 480 * n, b"x")
        b.ok()
    b.died()
    b.mends()
    last(b)
    b.no(17, ("mend",), ("mend",))
    b.fails(6)
    last(b, "a")
    b.mends()
    assert b.at.files.place(2, META, 2) is not None


def last(b, gone=None):
    """A size of the last node, and a removal of another, are left behind by a host that goes down."""
    root = b.again()
    b.resize(b.ok(b.find(root, "e")), 5)
    b.ok()
    if gone:
        b.ok(b.find(root, gone))
        b.remove_file(root, gone)
        b.ok()
    b.died()


def second_group(b):
    """Nodes of the second group, from outside: one is named by a slot that named node 3, one by none. All maps are stored."""
    root = b.fresh()
    b.close(b.ok(b.create(root, "a")))
    b.superblock("groups", 2)
    b.superblock("blocks", 2048)
    b.superblock("unused", 1020 + 1021)
    b.length(META, 2 * 131072, "two groups")
    first, second = (record(FILE, 0, 0, bytes([c]) * 16) for c in b"FS")
    # from the map of the second group on: ids 1025, 1026 and 1028 are used
    tail = (b"\xe9" + b"\xff" * 127 + first).ljust(480 - 160, b"\0")
    blocks = block(2, META, 273, bytes(160) + tail), block(2, META, 274, bytes(64) + second + bytes(304)), block(1, (1, b"F" * 16), 9), block(1, (1, b"S" * 16), 0)
    b.at.is_sound()
    for k, new in zip(b.at.files.free(), blocks):
        b.poke_block(k, bytes(512), new)
    b.change((1, ROOT_FILE), 264 * 2, (1026).to_bytes(4, "little"), "slot 2 names 1026")
    b.died()
    b.fails(6)
    b.mends()
    b.delivers(b"1026 1 1 /a\n")


def made():
    b = Script()
    for part in (bad_arena, damaged, bad_table, bad_owners, bad_handle, owners, bad_name, slashes, sockets, by_call, two_keys, dots, taken, links, table_full, last_stamp, no_space, stuck,
                 contents, held_on, limits, device_full, torn, no_contents, ranges, bad_ranges, ranges_full, ranges_torn, no_ranges, carried, no_way_up, paths, inventories, full_paths, menders):
        part(b)
    b.fresh()
    b.check()
    b.ok()
    text = "".join(line + "\n" for line in b.lines)
    assert list(model.lines(bytes(b.data))) == b.lines
    return bytes(b.data), text.encode()
