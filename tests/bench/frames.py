#!/usr/bin/env python3
"""frames.py ARCHIVE [PREFIX]: how deep the stack can go below each function whose name has the prefix (dz_), from its x86-64 code.

A function's frame is what it pushes and what it takes from the stack pointer; the depth is its frame and that of the deepest function that it
calls, with 8 bytes for each return address. A function of the C library counts nothing (memcpy, memset, memcmp).
A function that calls itself counts as often as it can stand on the stack at once, which FRAMES says. Where that is not known the depth isn't either.
It fails there, where a call takes 48 KB or more, and where it found no call at all.
"""
import re
import subprocess
import sys

# A span of a path has at most 32 names, and the call for the last of them makes one more, which writes nothing.
FRAMES = {"calls_path::write_names": 33}


def signed(number):
    """A number as the processor takes it: 128 bytes are taken by adding -128, and given back by subtracting it."""
    return number - (1 << 64) if number >= 1 << 63 else number


def functions(archive):
    """name -> (frame, names it calls)"""
    text = subprocess.run(["objdump", "-dr", "--no-show-raw-insn", archive], capture_output=True, text=True).stdout
    if "push" not in text:
        text = subprocess.run(["llvm-objdump", "-dr", "--no-show-raw-insn", archive], capture_output=True, text=True, check=True).stdout
    found, name, in_loop, jumps = {}, None, False, False
    for line in text.splitlines():
        head = re.match(r"^[0-9a-f]+ <(.+)>:", line)
        if head:
            name = head.group(1)
            found[name] = [0, set()]
            continue
        if name is None:
            continue
        if re.search(r"\bpush[ql]?\b", line):
            found[name][0] += 8
        # a frame of many pages is taken page by page, in a loop up to %r11
        moved = re.search(r"\b(sub|add)q?\s+\$(-?0x[0-9a-f]+|-?\d+),\s*%(rsp|r11)", line)
        by = signed(int(moved.group(2), 0)) if moved else 0
        taken = by if moved and moved.group(1) == "sub" else -by if moved and moved.group(3) == "rsp" else 0
        if taken > 0 and not in_loop:
            found[name][0] += taken
        in_loop = taken > 0 and moved.group(3) == "r11"
        # a relocation stands below its instruction
        placed = re.search(r"R_X86_64_(?:PLT32|PC32|GOTPCREL\w*)\s+([^\s+-]+)", line)
        if not placed:
            jumps = bool(re.search(r"\bjmpq?\b", line))
        called = placed or re.search(r"\b(?:call|jmp)q?\s+(?:0x)?[0-9a-f]+ <([^>+]+)>", line)
        target = called and called.group(1).removeprefix(".text.")
        # a jump to its own start is a loop
        if called and not (jumps and target == name):
            found[name][1].add(target)
    return found


MOST = 49152


def depth(name, found, known, above=()):
    if name not in found:
        return 0, []
    if name in above or (name in found[name][1] and name not in FRAMES):
        sys.exit(f"frames.py: {name} calls itself, and how deep is not known")
    if name not in known:
        frame, calls = found[name]
        frames = FRAMES[name] if name in calls else 1
        below = max((depth(c, found, known, (*above, name)) for c in calls - {name}), default=(0, []))
        known[name] = (frames * (frame + 8) + below[0], [f"{name} {frame}" + (f" x {frames}" if frames > 1 else "")] + below[1])
    return known[name]


def main():
    found, known = functions(sys.argv[1]), {}
    prefix = sys.argv[2] if len(sys.argv) > 2 else "dz_"
    calls = sorted((depth(n, found, known) for n in found if n.startswith(prefix)), reverse=True)
    for deep, way in calls:
        print(f"{way[0].split()[0]} {deep}: " + ", ".join(way[:6]))
    if not calls or calls[0][0] >= MOST:
        sys.exit(f"frames.py: no call, or one over {MOST} bytes")


if __name__ == "__main__":
    main()
