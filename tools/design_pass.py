"""Prints the lists of docs/DESIGN-PASS.md: python3 tools/design_pass.py OLD NEW, two trees of the repository (git worktree add ../old 23f39f9b).
It reads texts alone, with the kit's /opt/rattle/port/contracts.py; whether a new text says less is for a reader to judge."""
import collections
import glob
import os
import re
import sys

sys.path.insert(0, "/opt/rattle/port")
import contracts  # noqa: E402

BRACKETS, OLD, NEW = r"\((?:[^()]|\([^()]*\))*\)", sys.argv[1], sys.argv[2]


def renamed(s):
    """Found as an Option, At and Nothing as Some and None."""
    for a, b in ((r"\bFound\b", "Option ℕ"), (r"\bAt\b", "Some"), (r"\bNothing\b", "None"), (r"\(Option ℕ\)", "Option ℕ")):
        s = re.sub(a, b, s)
    return s


def plain(s):
    """Without brackets around one word or one field of it."""
    t = None
    while t != s:
        t, s = s, re.sub(r"\(([RV][.\w]*)\)", r"\1", s)
    return renamed(s)


def shapes(old):
    """The old clause, as the rule may read it: R the reason's number, V the value."""
    o = old.replace("result.reason", "R")
    fields = list(dict.fromkeys(re.findall(r"result\.(\w+)", o)))
    yield re.sub(r"\bresult\b", "R", o) if not fields else re.sub(r"result\.(\w+)", r"V.\1", o)
    yield re.sub(r"\bresult\b", "R", re.sub(r"result\.\w+", "V", o))
    for k, f in enumerate(fields):
        o = o.replace("result." + f, f"V.{k}")
    yield o
    yield o.replace("V.0, V.1", "V")


def by_rule(old, new):
    """The D with which the new clause is the old one, by the rule; or None."""
    ds = []
    n = re.sub(r"result_unwrap_or result (" + BRACKETS + r"|[\w.]+)", lambda m: ds.append(m[1]) or "V", re.sub(r"code result\b", "R", new))
    return (" ".join(dict.fromkeys(ds)) or "-") if "result" not in n and any(plain(o) == plain(n) for o in shapes(old)) else None


def pairs(old, new):
    left, out = [(k, x) for k, v in new.items() for x in v], []
    for test in (lambda a, b: a == b, lambda a, b: (a[0], a[2], a[3]) == (b[0], b[2], b[3]), lambda a, b: (a[0], a[3]) == (b[0], b[3])):
        rest = []
        for a, x in old:
            hit = next((p for p in left if test(a, p[0])), None)
            if hit:
                left.remove(hit)
                out.append((a, x, hit[1]))
            else:
                rest.append((a, x))
        old = rest
    return sorted(out, key=lambda p: p[0]), old, left


def statements(root):
    """pub NAME : TYPE of each module of proofs/ (not of the folders by functions), without the proof; and what its modules take."""
    out = {}
    for path in glob.glob(os.path.join(root, "crates/*/proofs/*.antt")):
        crate, lines = path.split("/crates/")[1].split("/")[0], open(path, encoding="utf-8").read().split("\n")
        for i, l in enumerate(lines):
            m = re.match(r"( *)(?:abbrev |unfoldable )?pub (?:abbrev |unfoldable |data |record )?([^\s:(){}]+)(?: .*)? :( |$)", l) or re.match(r"( *)(module) _ ", l)
            if m and not l.lstrip().startswith("pub mod"):
                text = [l]
                for k in lines[i + 1 :] if m[2] != "module" or not l.endswith("where") else []:
                    if not k.strip() or len(k) - len(k.lstrip()) <= len(m[1]) or re.match(rf"\s*({re.escape(m[2])}|unfolding)\b", k):
                        break
                    text.append(k)
                out.setdefault((crate, os.path.basename(path), m[2]), []).append(contracts.squeeze(" ".join(text)))
    return out


def types(root):
    out = {}
    for path in glob.glob(os.path.join(root, "crates/*/src/**/*.rt"), recursive=True):
        raw = re.sub(r"//[^\n]*", "", open(path, encoding="utf-8").read())
        for m in re.finditer(r"pub (?:struct|enum) (\w+)[^{;]*\{", raw):
            out.setdefault((path.split("/crates/")[1].split("/")[0], m[1]), []).append(contracts.squeeze(raw[m.start() : contracts.closing(raw, m.end() - 1)]))
    return out


def show(title, rows):
    print(f"\n### {title}: {len(rows)}")
    for i, (c, name, olds, news) in enumerate(rows):
        print(("" if i and rows[i - 1][0] == c else f"\n**{c}**\n\n") + f"- {name}")
        for word, texts, others in (("old", olds, news), ("new", news, olds)):
            for t in [t for t in texts if t not in others]:
                print(f"  - {word}: `{t}`")


def names(title, rows):
    by = collections.defaultdict(list)
    for c, name in rows:
        by[c].append(f"`{name}`")
    print(f"\n### {title}: {len(rows)}\n\n" + "\n".join(f"- {c}: {', '.join(v)}" for c, v in sorted(by.items())))


def main():
    (_, of, _, os_, _, ofile), (_, nf, _, ns, _, nfile) = contracts.read(OLD), contracts.read(NEW)
    for x in [x for f in (of, nf) for v in f.values() for x in v]:
        x["sign"] = re.sub(r",? \)", ")", x["sign"].replace("( ", "("))
    both, gone, more = pairs([(k, x) for k, v in sorted(of.items()) for x in v], nf)
    told = lambda f: [f"{c[0]} {c[1]} {{ {c[2]} }}".replace("  ", " ") for c in f["requires"] + f["ensures"]]  # noqa: E731
    rule, full = {True: [], False: []}, {True: [], False: []}
    for (crate, path, place, name), x, y in both:
        signed, o, n, public = x["sign"] != y["sign"], told(x), told(y), x["pub"] or y["pub"]
        if signed or o != n:
            (a, _, r), (b, _, s) = x["sign"].rpartition(" -> "), y["sign"].rpartition(" -> ")
            olds, news = [c for c in o if c not in n], [c for c in n if c not in o]
            d = [by_rule(p, q) for p, q in zip(olds, news)] if len(olds) == len(news) else [None]
            title = f"`{place + '.' if place else ''}{name}` ({path[4:]})"
            if a == b and None not in d:
                rule[public].append((crate, title, r, s, " ".join(dict.fromkeys(v for v in d if v != "-")) or ("-" if d else "text stays" if o else "no clause")))
            else:
                full[public].append((crate, title, ([f"{name}{x['sign']}"] if signed else []) + olds, ([f"{name}{y['sign']}"] if signed else []) + news))
    for public in (True, False):
        print(f"\n### {'Public' if public else 'Private'} functions by the rule alone: {len(rule[public])}\n")
        print("| crate | function | old result | new result | D |\n|---|---|---|---|---|")
        for row in rule[public]:
            print("| " + " | ".join([row[0], row[1]] + [f"`{v}`" if v[0] != "-" else "-" for v in row[2:]]) + " |")
        show(f"{'Public' if public else 'Private'} functions, in full", full[public])
    named = lambda rows: [(k[0], f"{k[2] + '.' if k[2] else ''}{k[3]}{x['sign']}{'' if x['pub'] else ' (private)'}") for k, x in rows]  # noqa: E731
    names("Functions that are gone", named(gone))
    names("Functions that are new", sorted(named(more)))
    for label, a, b in (("Public types", types(OLD), types(NEW)), ("Definitions of specs/", os_, ns), ("Public statements in proofs/", statements(OLD), statements(NEW))):
        lost, moved, _ = contracts.beside(a, b)
        only = [m for m in moved if sorted(map(renamed, m[-2])) == sorted(map(renamed, m[-1]))]
        key = lambda m: "`" + " ".join(m[1:]) + "`"  # noqa: E731
        if only:
            names(f"{label}, changed only as Found became Option", [(m[0], " ".join(m[1:-2])) for m in only])
        show(f"{label}, changed otherwise", [(m[0], key(m[:-2]), m[-2], m[-1]) for m in moved if m not in only])
        for word, rows, texts in (("gone", lost, a), ("new", contracts.beside(b, a)[0], b)):
            if label.endswith("proofs/"):
                names(f"{label}, {word}", [(m[0], " ".join(m[1:])) for m in rows])
            else:
                show(f"{label}, {word}", [(m[0], key(m), *((texts[tuple(m)], []) if word == "gone" else ([], texts[tuple(m)]))) for m in rows])
    names("Must-fail edits that were brought over", [(m[0], m[1][10:-5]) for m in contracts.beside(ofile, nfile)[1] if m[1].endswith(".edit")])


main()
