"""The two sides and their comparison: what `run`, `findings` and `shrink` share."""
import collections
import os
import pathlib
import subprocess
import sys

HERE = pathlib.Path(__file__).resolve().parent
TOP = HERE.parent.parent
OUT = TOP / "target" / "beside_rust"
HOST = TOP / "tests" / "replay-host"
MODEL = TOP / "tests" / "model" / "replay_model.py"
SHOWN = 10


def side():
    if os.environ.get("SIDE"):
        return ["sh", "-c", os.environ["SIDE"]]
    return [str(HOST)] if os.access(HOST, os.X_OK) and HOST.is_file() else [sys.executable, str(MODEL)]


def fits(said, got):
    """Whether a line is the one said, where a dash stands for a number that isn't known."""
    said, got = said.split(" "), got.split(" ")
    return len(said) == len(got) and all(s in ("-", g) for s, g in zip(said, got))


class Counts:
    def __init__(self):
        self.same, self.left, self.unsaid = collections.Counter(), collections.Counter(), collections.Counter()
        self.both, self.differences = 0, []

    def compare(self, name, rust, other):
        """The lines of one script; stops at the first difference, since what follows would only repeat it."""
        lost = False
        if len(rust) != len(other):
            self.differences.append((name, 0, f"{len(rust)} lines", f"{len(other)} lines"))
        for at, (line, got) in enumerate(zip(rust, other), 1):
            mark, said = line[0], line[1:]
            rule, _, said = said.partition(" ")
            call = said.split(" ")[0]
            if lost and not (mark == "=" and call == "format"):
                self.unsaid["after stuck", call] += 1
                continue
            lost = False
            if mark == "?":
                self.unsaid[rule, call] += 1
                words, kept = got.split(" "), fits(said.split(" ", 1)[1], got[got.rindex(" a ") + 1:])
                ok = words[0] == call and (kept or words[1] == "ok")
                lost = not kept
            else:
                ok = fits(said, got)
                if mark == "=":
                    self.both += rule == "lookup_follow"
                    self.same[call, " ".join(said.split(" ")[1:3]) if " no " in said else "ok"] += 1
                else:
                    self.left[rule, call] += 1
            if not ok or mark == "!":
                self.differences.append((name, at, line, got))
                return

    def show(self, scripts):
        def by(counter, key):
            sums = collections.Counter()
            for k, n in counter.items():
                sums[k[key]] += n
            return ", ".join(f"{k} {n}" for k, n in sums.most_common()) or "none"

        calls = sum(map(sum, (c.values() for c in (self.same, self.left, self.unsaid))))
        print(f"sequences {scripts}, calls {calls}")
        print(f"compared with the Rust {sum(self.same.values())}: {by(self.same, 0)}")
        print(f"  their answers: {by(self.same, 1)}")
        print(f"  of its walks, by lookup_follow too: {self.both}")
        print(f"left out by a rule, the answer that the documents give compared {sum(self.left.values())}: {by(self.left, 0)}")
        print(f"left out by a rule, no answer said {sum(self.unsaid.values())}: {by(self.unsaid, 0)}")
        print(f"differences {len(self.differences)}")
        for name, at, line, got in self.differences[:SHOWN]:
            print(f"  {name} line {at}\n    rust  {line}\n    other {got}")


def output(command, script):
    with open(script, "rb") as data:
        run = subprocess.run(command, stdin=data, capture_output=True, text=True)
    if run.returncode:
        sys.exit(f"{' '.join(command)} ended with {run.returncode}\n{run.stderr[-2000:]}")
    return run.stdout.splitlines()


def build():
    if subprocess.run([HERE / "build"]).returncode:
        sys.exit(2)


def rust(script):
    return output([str(OUT / "driver"), "run"], script)
