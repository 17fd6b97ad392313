"""Call scripts from Python: a builder that follows along on the model, so that stored fields can be changed by name, and a reader that
tells a script in words."""
import pathlib
import struct
import sys

sys.path.insert(0, str(pathlib.Path(__file__).resolve().parent.parent / "model"))
import replay_model as model
from arena_model import BLOCK, META, PAYLOAD, sealed

FILE, FOLDER, SYMLINK, SOCKET = 1, 2, 3, 4
TIME = (5, -6)
# Where a record has its fields: place and size.
FIELDS = {"size": (0, 8), "type": (8, 4), "mode": (12, 2), "links": (14, 2), "blocks": (16, 4), "file": (80, 16)}
SUPERBLOCK = {"magic": 0, "blocks": 4, "unused": 8, "groups": 12}

# fallocate's modes, by their numbers.
MODES = ("allocate", "punch", "zero", "zero-keep", "collapse", "insert")

# The calls that make a handle.
MAKERS = ("root", "find", "create", "walk")


class Builder:
    """A script as it grows; names are texts, handles what root, find, create and walk answered, and `who` is the owner who asks."""

    def __init__(self, blocks=16):
        self.data, self.at, self.words = bytearray(), model.Model(), []
        self.files, self.who = 0, 1
        self.raw(b"\2" + struct.pack("<I", BLOCK * blocks), f"arena of {blocks} blocks")
        self.at.set_arena(bytes(BLOCK * blocks))

    def raw(self, data, words):
        self.data += data
        self.words.append(words)

    def call(self, name, *args, words=""):
        """Adds a call; the model's answer is the handle, if it is one."""
        if takes_owner(name):
            args, words = (self.who, *args), f"{words} for {self.who}" if self.who != 1 else words
        self.raw(packed(name, args), f"{name} {words}".strip())
        self.line = self.at.run(name, args)
        answer = self.line.split(" ")
        if name in MAKERS and answer[1] == "ok":
            return int(answer[2]), int(answer[3])
        return None

    def format(self):
        self.call("format", TIME, bytes([200] * 16))

    def open(self):
        self.call("open")

    def root(self):
        return self.call("root")

    def find(self, h, name):
        return self.call("find", h, raw(name), words=f"{shown(h)} {quoted(name)}")

    def walk(self, h, path, room=8192):
        return self.call("walk", h, raw(path), room, words=f"{shown(h)} {quoted(path)} links {room}")

    def create(self, h, name, kind=FILE):
        self.files += 1
        what = {1: "file", 2: "folder", 3: "symlink", 4: "socket"}.get(kind, f"type {kind}")
        file = self.files.to_bytes(2, "little") * 8
        return self.call("create", h, raw(name), kind, 420, TIME, file, words=f"{shown(h)} {quoted(name)} {what}")

    def link(self, h, name, node):
        self.call("link", h, raw(name), node, words=f"{shown(h)} {quoted(name)} node {shown(node)}")

    def remove_file(self, h, name):
        self.call("remove-file", h, raw(name), words=f"{shown(h)} {quoted(name)}")

    def remove_folder(self, h, name):
        self.call("remove-folder", h, raw(name), words=f"{shown(h)} {quoted(name)}")

    def move(self, h, old, to, new):
        self.call("move", h, raw(old), to, raw(new), words=f"{shown(h)} {quoted(old)} to {shown(to)} {quoted(new)}")

    def metadata(self, h):
        self.call("metadata", h, words=shown(h))

    def list(self, h, at=0, room=8192, dots=0):
        self.call("list", h, at, dots, room, words=f"{shown(h)} from {at}{' with the dots' if dots else ''} output {room}")

    def read(self, h, at=0, room=8192):
        self.call("read", h, at, room, words=f"{shown(h)} from {at} output {room}")

    def write(self, h, at, data):
        self.call("write", h, at, data, words=f"{shown(h)} at {at} {bytes_shown(data)}")

    def resize(self, h, size):
        self.call("resize", h, size, words=f"{shown(h)} to {size}")

    def fallocate(self, h, mode, start, length, flags=0):
        self.call("fallocate", h, mode, flags, start, length, words=f"{shown(h)} {MODES[mode]} flags {flags} from {start} length {length}")

    def path(self, h, room=8192):
        self.call("path", h, room, words=f"{shown(h)} output {room}")

    def close(self, h):
        self.call("close", h, words=shown(h))

    def check(self):
        self.call("check")

    def inventory(self, room=8192):
        self.call("inventory", room, words=f"output {room}")

    def mend(self):
        self.call("mend")

    # bytes changed from outside, a block's check mended

    def table(self, data, words="table"):
        self.raw(b"\4" + data, words)
        self.at.set_table(data)

    def change(self, file, pos, data, words):
        files = model.Files(model.Blocks(model.Model.cut(self.at.arena_bytes())))
        for q in range(pos // PAYLOAD, (pos + len(data) - 1) // PAYLOAD + 1):
            k = files.place(2, file, q)
            old = files.blocks[k]
            payload = bytearray(old[24:504])
            for p in range(max(pos, q * PAYLOAD), min(pos + len(data), (q + 1) * PAYLOAD)):
                payload[p - q * PAYLOAD] = data[p - pos]
            self.poke_block(k, old, sealed(old[:24] + bytes(payload) + old[504:]))
        self.words.append(words)

    def length(self, file, length, words):
        """Changes the length in a file's head."""
        files = model.Files(model.Blocks(model.Model.cut(self.at.arena_bytes())))
        k = files.place(1, file)
        old = files.blocks[k]
        self.poke_block(k, old, sealed(old[:20] + length.to_bytes(4, "little") + old[24:]))
        self.words.append(words)

    def poke_block(self, k, old, new):
        for i in range(BLOCK):
            if old[i] != new[i]:
                self.data += b"\3" + struct.pack("<IB", BLOCK * k + i, new[i])
                self.at.poke(BLOCK * k + i, new[i])

    def record(self, id, field, value):
        at, size = FIELDS[field]
        data = value if isinstance(value, bytes) else value.to_bytes(size, "little")
        self.change(META, 128 * id + at, data, f"set {field} of record {id} to {value}")

    def superblock(self, field, value):
        self.change(META, SUPERBLOCK[field], value.to_bytes(4, "little"), f"set the superblock's {field} to {value}")

    def map(self, group, data, words):
        self.change(META, 128 * (1024 * group + 1), data, words)


def table_bytes(rows, holds, stamp):
    """A table's bytes: rows (id, dirty, record) and holds (row, stamp, owner) from the first on, and the next stamp."""
    return (b"".join(struct.pack("<IB", id, dirty) + record for id, dirty, record in rows).ljust(117 * model.ROWS, b"\0")
            + b"".join(model.HOLD.pack(*hold) for hold in holds).ljust(model.HOLD.size * model.HOLDS, b"\0") + struct.pack("<Q", stamp))


def takes_owner(name):
    return model.SHAPES[name].startswith("p")


def raw(name):
    return name if isinstance(name, bytes) else name.encode()


def pack(shape, arg):
    if shape in "1248":
        return arg.to_bytes(int(shape), "little")
    if shape in "pdm":
        return bytes([arg])
    if shape == "o":
        return arg.to_bytes(2, "little")
    if shape == "h":
        return struct.pack("<IQ", *arg)
    if shape in "nwl":
        return struct.pack("<H", len(arg)) + arg
    if shape == "t":
        return struct.pack("<2q", *arg)
    return arg


def bytes_shown(data):
    if len(data) <= 16:
        return data.hex() or "no bytes"
    return f"{len(data)} bytes" + ("" if any(data) else " of zeros")


def shown(h):
    return f"({h[0]} {h[1]})"


def quoted(name):
    return '"' + "".join(chr(b) if 32 <= b < 127 and b not in (34, 92) else f"\\{b:02x}" for b in raw(name)) + '"'


def packed(name, args):
    """One command's bytes."""
    if name == "arena":
        data, = args
        return (b"\1" if any(data) else b"\2") + struct.pack("<I", len(data)) + (data if any(data) else b"")
    if name == "poke":
        return b"\3" + struct.pack("<IB", *args)
    if name == "table":
        return b"\4" + args[0]
    return bytes([model.BYTES[name]]) + b"".join(pack(shape, arg) for shape, arg in zip(model.SHAPES[name], args))


class Maker:
    """Stands for the handle that a command makes, whatever its number will be."""

    def __init__(self, name):
        self.name = name


def followed(at, name, args):
    """Runs one command on a model; the handle it made, if it made one."""
    if name not in model.NAMES:
        {"arena": at.set_arena, "poke": at.poke, "table": at.set_table}[name](*args)
        return None
    answer = at.run(name, args).split(" ")
    return (int(answer[2]), int(answer[3])) if name in MAKERS and answer[1] == "ok" else None


def symbolic(data):
    """The commands of a script as (name, arguments, maker), each handle replaced by its maker where it has one."""
    at, made, out = model.Model(), {}, []
    try:
        for name, args in model.Script(data).commands():
            shapes = model.SHAPES.get(name, "-" * len(args))
            maker = Maker(name)
            out.append((name, tuple(made.get(a, a) if s == "h" else a for s, a in zip(shapes, args)), maker))
            handle = followed(at, name, args)
            if handle:
                made[handle] = maker
    except model.BadScript:
        pass
    return out


def concrete(commands):
    """The script of such commands, numbers anew; a command whose handle has no maker any more is left out."""
    at, made, out = model.Model(), {}, []
    for name, args, maker in commands:
        if any(isinstance(a, Maker) and a not in made for a in args):
            continue
        args = tuple(made[a] if isinstance(a, Maker) else a for a in args)
        out.append((name, args))
        handle = followed(at, name, args)
        if handle:
            made[maker] = handle
    return out


def told(name, args):
    """A command in words."""
    words = []
    for shape, arg in zip(model.SHAPES.get(name, "-" * len(args)), args):
        if shape == "h":
            words.append(shown(arg))
        elif shape == "p":
            words.append(f"for {arg}")
        elif shape == "d":
            words.append("with the dots" if arg else "without the dots")
        elif shape == "m":
            words.append(MODES[arg])
        elif shape in "nl":
            words.append(quoted(arg))
        elif shape == "t":
            words.append(f"{arg[0]}s{arg[1]}ns")
        elif isinstance(arg, bytes):
            words.append(bytes_shown(arg))
        else:
            words.append(str(arg))
    return " ".join([name, *words])
