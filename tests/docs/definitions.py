#!/usr/bin/env python3
"""definitions.py [--write]: docs/DEFINITIONS.md, the list of definitions, made from the comments that stand above them in specs/.

Without --write it says whether the page is as the files have it (exit status 1 where not).
"""
import os
import re
import sys

TOP = os.path.dirname(os.path.dirname(os.path.dirname(os.path.abspath(__file__))))
PAGE = os.path.join(TOP, "docs", "DEFINITIONS.md")
TITLE = """# The definitions

Each with the words that stand above it in its file: the sentence of document 01, of RFC 3629 or of the Rust that it renders. "Where" is
the file of the crate's `specs/`. What is proved with them is in [PROOFS.md](PROOFS.md).

<!-- made by tests/docs/definitions.py --write: change the comments, not this page -->

"""
HEAD = re.compile(r"^(?:abbrev |unfoldable )?pub (?:(data|record) )?([^\s:]+)")


def crates():
    with open(os.path.join(TOP, "crates.txt"), encoding="utf-8") as lines:
        return [line.split(":")[0].split()[0] for line in lines if ":" in line and not line.startswith("#")]


def definitions(path):
    """(name, comment) of each public definition of a file of specs/, in its order, those indented under a `module .. where` too.

    Where none stands above it, it has the comment of its section ("-- ----" and the lines that go on with it), or else the file's own.
    """
    found, comment, section, first, in_section, in_module = [], [], "", True, False, False
    with open(path, encoding="utf-8") as lines:
        for line in lines:
            line = line.rstrip("\n")
            if line and not line.startswith(" "):
                in_module = line.startswith("module ")
            elif in_module:
                line = line[2:]
            if line.startswith("-- ---- "):
                section, comment, in_section = line[8:], [], True
            elif line.startswith("-- ") and in_section:
                section += " " + line[3:]
            elif line.startswith("-- "):
                comment.append(line[3:])
            else:
                head = HEAD.match(line)
                if head and head.group(2) != "mod":
                    found.append((head.group(2), " ".join(comment) or section))
                elif comment and (first or not line):
                    section = " ".join(comment)
                first, comment, in_section = False, [], False
    return found


def listing():
    out = []
    for crate in crates():
        folder = os.path.join(TOP, "crates", crate, "specs")
        if not os.path.isdir(folder):
            continue
        files = [f for f in sorted(os.listdir(folder)) if f.endswith(".antt") and f != "Lib.antt"]
        out.append(f"## {crate}\n")
        out.append("| definition | where | what it says |\n|---|---|---|")
        for name in files:
            for what, comment in definitions(os.path.join(folder, name)):
                out.append(f"| `{what}` | {name[:-5]} | {comment.replace('|', '/')} |")
        out.append("")
    return "\n".join(out)


def main():
    new = TITLE + listing()
    if "--write" in sys.argv:
        with open(PAGE, "w", encoding="utf-8") as out:
            out.write(new)
        return 0
    text = ""
    if os.path.exists(PAGE):
        with open(PAGE, encoding="utf-8") as whole:
            text = whole.read()
    print("the page is as the files have it" if new == text else "the page is not as the files have it: run with --write")
    return 0 if new == text else 1


if __name__ == "__main__":
    sys.exit(main())
