"""What is there in an arena by its stored records, with no node open; and the traces of order 12, each looked for by what it is."""
import collections
import functools
import struct

import places
from arena_model import META, PAYLOAD
from replay_model import FOLDER, GROUP, RECORD, SLOT, Blocks, Files, Record, u32

MAP = 128
GROUP_BYTES = 128 * GROUP


def map_at(group):
    return 128 * (GROUP * group + 1)


class Image:
    """A sound arena as its blocks. Bytes past a file's end, and those of a file that is not there, read as zeros."""

    def __init__(self, blocks):
        self.blocks = list(blocks)
        self.files = Files(Blocks(self.blocks))
        self.magic, self.count, self.unused, self.groups = struct.unpack("<4I", self.files.span(META, 0, 16))
        self.maps = b"".join(self.map(g) for g in range(self.groups))
        self.nodes = [id for id in range(GROUP * self.groups) if self.is_node(id)]
        self.folders = [id for id in self.nodes if self.record(id).type == FOLDER]

    def map(self, group):
        return self.files.span(META, map_at(group), MAP)

    def is_set(self, id):
        return self.maps[id // 8] >> id % 8 & 1 == 1

    def is_node(self, id):
        return 0 < id < GROUP * self.groups and id % GROUP != 1 and not self.is_set(id)

    def set_bits(self):
        return sum(byte.bit_count() for byte in self.maps)

    def stored(self, id):
        return self.files.span(META, 128 * id, RECORD)

    def record(self, id):
        return Record.read(self.stored(id))

    def there(self, file):
        return self.files.place(1, file) is not None

    def length(self, file):
        return self.files.length(file) if self.there(file) else 0

    @functools.cached_property
    def contents(self):
        """Of each file its head and its blocks by number, the head's number being None."""
        found = collections.defaultdict(dict)
        for (_, file, number), k in self.files.blocks.at.items():
            found[file][number] = self.blocks[k][20:504]
        return found

    @functools.cached_property
    def slots(self):
        """Of each folder its slots, as many as its stored record counts: id, name and type."""
        return {folder: list(self.read_slots(self.record(folder))) for folder in self.folders}

    def read_slots(self, record):
        for k in range(record.blocks):
            data = self.files.span((1, record.file), SLOT * k, SLOT)
            yield u32(data, 0), data[4:260].partition(b"\0")[0], u32(data, 260)

    def names(self, folders):
        """What a lookup of each name in these folders gives: the first slot of that name."""
        found = {}
        for folder in folders:
            for id, name, _ in self.slots[folder]:
                found.setdefault((folder, name), id)
        return found

    def later_names(self, folder):
        return [(name, id) for id, name, _ in self.slots[folder][2:]]

    def way(self, folder):
        """The names from root down to a folder."""
        above = {id: (up, name) for up in self.folders for name, id in self.later_names(up)}
        names = []
        while folder != 2:
            folder, name = above[folder]
            names.insert(0, name)
        return names

    @functools.cached_property
    def nameless(self):
        """The nodes but root that no later slot names."""
        named = {id for folder in self.folders for _, id in self.later_names(folder)}
        return [id for id in self.nodes if id != 2 and id not in named]


# ---------------------------------------------------------------- the traces

def is_nameless(before, birth, cut):
    return not any(id == birth.id for folder in before.folders for _, id in cut.later_names(folder))


def has_record(before, birth, cut):
    return cut.stored(birth.id) == birth.child


def used_id(before, birth, cut):
    return cut.is_node(birth.id) and is_nameless(before, birth, cut)


def nameless_record(before, birth, cut):
    return used_id(before, birth, cut) and has_record(before, birth, cut)


def stray_file(before, birth, cut):
    """It is there, no earlier node's record names it, and it is not the used id's with the new record."""
    others = any(cut.record(id).file == birth.file for id in before.nodes)
    return cut.there((1, birth.file)) and not others and not (cut.is_node(birth.id) and has_record(before, birth, cut))


def longer_folder(before, birth, cut):
    record = cut.record(birth.up)
    return cut.length((1, record.file)) > SLOT * record.blocks


def longer_metadata(before, birth, cut):
    return cut.length(META) > GROUP_BYTES * cut.groups


def wrong_unused(before, birth, cut):
    return cut.unused != cut.set_bits()


def zero_map(before, birth, cut):
    return cut.groups > before.groups and not any(cut.map(before.groups))


TRACES = {"used id": used_id, "nameless record": nameless_record, "stray file": stray_file, "longer folder": longer_folder,
          "longer metadata": longer_metadata, "wrong unused": wrong_unused, "zero map": zero_map}


def traces(before, birth, cut):
    return {name for name, looks in TRACES.items() if looks(before, birth, cut)}


# ---------------------------------------------------------------- what may differ from before

def outside(before, birth, cut):
    """What else differs, in words: files but the three, the folder's earlier slots, and the metadata file's other places."""
    parent = (1, before.record(birth.up).file)
    for file in sorted(before.contents.keys() | cut.contents.keys()):
        if file not in (META, (1, birth.file), parent) and before.contents.get(file) != cut.contents.get(file):
            yield f"file {file[1].hex()}"
    kept = SLOT * before.record(birth.up).blocks
    if before.files.span(parent, 0, kept) != cut.files.span(parent, 0, kept):
        yield "an earlier slot"
    if masked(before, birth) != masked(cut, birth):
        yield "the metadata file"


def masked(image, birth):
    """The metadata file's blocks with superblock, maps and the two records as zeros; a block of zeros is as one that is absent."""
    spans = [(0, 16), (128 * birth.id, RECORD), (128 * birth.up, RECORD)] + [(map_at(g), MAP) for g in range(birth.groups)]
    rest = {number: bytearray(block[4:]) for number, block in image.contents[META].items() if number is not None}
    for start, length in spans:
        for place in range(start, start + length):
            if place // PAYLOAD in rest:
                rest[place // PAYLOAD][place % PAYLOAD] = 0
    return {number: bytes(payload) for number, payload in rest.items() if any(payload)}
