#!/usr/bin/env python3
"""lifted.py: the scripts of earlier levels (../shared/vectors, and ../shared/vectors-02 below the newest level) as scripts of the newest one, in
target/lifted/LEVEL, for tests/vectors: owner 1 asks each call and has each live hold of a table, listings ask for the dots, and an unlink is the one of order
9's two calls that takes what is there. Where the format was broken it is broken again.

The lines are the model's (replay_model.py; the port is not asked), held against the NAME.expected of the script's own level: they are the same, but
for the sum of a table that had no owners, for calls that a later order names (`named`), and for what follows such a call until format or open have
both sides alike again. The counts are printed; a difference that no order names ends it with status 1.
"""
import pathlib
import struct
import sys

TOP = pathlib.Path(__file__).resolve().parent.parent.parent
sys.path.insert(0, str(TOP / "tests" / "beside_rust"))
from scripts import SOCKET, followed, model, packed, takes_owner

SHARED = TOP.parent / "shared"
LEVEL = 14
# A table's bytes without owners, and where its holds stand.
OLD_TABLE, HOLDS = 4370, 117 * model.ROWS
UNKNOWN = b"\5"
# The byte of the call that order 9 split.
UNLINK = 22


def folder_of(level):
    return SHARED / "vectors-02" / f"level-{level}" if level else SHARED / "vectors"


def slash(name, args):
    """Whether the call would store a name with a slash."""
    at = {"create": 2, "link": 2, "move": 4}.get(name)
    return at is not None and b"/" in args[at]


def named(level, name, args, line):
    """The order after that level that has this line of this call, or None."""
    if level < 1 and line.startswith("check fail rule 6 "):
        return 1
    if level < 2 and name == "move":
        return 2
    if level < 4 and slash(name, args) and " no 5 " in line:
        return 4
    if level < 8 and name == "create" and args[3] == SOCKET and " no 6 " in line:
        return 8
    if level < 5 and any(words in line for words in (" no 16 ", " no 3 ", "check fail rule 2 ")):
        return 5
    return None


def last_of(level):
    """The last command's byte at that level."""
    return 30 if level < 1 else 34 if level < 7 else 35 if level < 9 else 37 if level < 10 else 38 if level < 11 else 39 if level < 13 else 40 if level < 14 else 41


def shapes_of(level):
    """What follows a command's byte, at that level: owners from 5 on, the mark for the dots from 6 on."""
    late = "pd" if level < 5 else "d" if level < 6 else ""
    without = str.maketrans("", "", late)
    shapes = {**model.SHAPES, "unlink": model.SHAPES["remove-file"]} if level < 9 else model.SHAPES
    return {name: shape.translate(without) for name, shape in shapes.items() if model.BYTES.get(name, UNLINK) <= last_of(level)}


def with_owners(table):
    """A table's bytes: each live hold is owner 1's."""
    holds = struct.iter_unpack("<IQ", table[HOLDS:-8])
    return table[:HOLDS] + b"".join(model.HOLD.pack(row, stamp, stamp != 0) for row, stamp in holds) + table[-8:]


def removes(at, who, h, name):
    """The call that removes what has this name, as things stand; where nothing has it, either will do."""
    try:
        step = model.Step(at.files, at.table, who)
        row = step.handle(h)
        found = row.rec.type == model.FOLDER and step.lookup(row, name)
        return "remove-folder" if found and step.record(model.u32(found[0], 0)).type == model.FOLDER else "remove-file"
    except (model.Refused, AttributeError):
        return "remove-file"


def lifted(level, data):
    """Such a script, its calls, and the model's lines."""
    made, calls, lines, at = [], [], [], model.Model()
    named = {**model.NAMED, UNLINK: "unlink"} if level < 9 else model.NAMED
    try:
        for name, args in model.Script(data, shapes_of(level), OLD_TABLE if level < 5 else model.TABLE_BYTES, named).commands():
            if level < 5 and name == "table":
                args = with_owners(*args),
            if name == "unlink":
                args = (1, *args) if level < 5 else args
                at.is_sound()
                name = removes(at, *args)
            elif name in model.NAMES:
                args = (1, *args) if level < 5 and takes_owner(name) else args
                args = (*args[:3], 1, *args[3:]) if level < 6 and name == "list" else args
            if name in model.NAMES:
                calls.append((name, args))
                lines.append(at.run(name, args))
            else:
                followed(at, name, args)
            made.append(packed(name, args))
    except model.BadScript:
        made.append(UNKNOWN)
        calls.append(("bad script", ()))
        lines.append("bad script")
    return b"".join(made), calls, lines


def told(level, line, name):
    """A line of the call that has this name now, without the sum of a table that had no owners."""
    line = name + line.removeprefix("unlink") if line.startswith("unlink ") else line
    return line.rsplit(" t ", 1)[0] if level < 5 else line


def counted(level, script, now, calls):
    """How many lines are as in the script's own level, which order changed how many, and how many only follow such a line."""
    same, orders, after, lost = 0, {}, 0, False
    before = script.with_suffix(".expected").read_text().splitlines()
    assert len(now) == len(before) == len(calls), script
    for number, (old, line, (name, args)) in enumerate(zip(before, now, calls), 1):
        if told(level, old, name) == told(level, line, name):
            same += 1
            lost = lost and name not in ("format", "open")
        elif lost:
            after += 1
        else:
            order = named(level, name, args, line)
            if order is None:
                sys.exit(f"{script}, line {number}: no order names it\n    {old}\n    {line}")
            orders[order] = orders.get(order, 0) + 1
            lost = True
    return same, orders, after


def main():
    for level in range(LEVEL):
        to = TOP / "target" / "lifted" / f"level-{level}"
        to.mkdir(parents=True, exist_ok=True)
        total, orders, after, scripts = 0, {}, 0, sorted(folder_of(level).glob("*.script"))
        for script in scripts:
            data, calls, now = lifted(level, script.read_bytes())
            (to / script.name).write_bytes(data)
            (to / script.with_suffix(".expected").name).write_text("".join(line + "\n" for line in now))
            same, own, later = counted(level, script, now, calls)
            total, after = total + same, after + later
            for order, n in own.items():
                orders[order] = orders.get(order, 0) + n
        told = ", ".join(f"order {order} {n}" for order, n in sorted(orders.items())) or "none"
        print(f"level {level}: {len(scripts)} scripts, {total} lines as they were; changed by {told}; after one of these {after}")


if __name__ == "__main__":
    main()
