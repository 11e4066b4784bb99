"""Computes the rulebook on the oracle's small cases and holds each value to the Rust's.

Each case of lists/small.txt becomes a statement about the definitions of crates/rules/specs, proved by computation alone.
The crate is copied to a temporary folder, the statements are added there, and `rt check` must accept it.
"""
import os
import re
import shutil
import subprocess
import sys
import tempfile

import builds
import descents
import relays
from antt import Writer
from reading import Reader, cases

HERE = os.path.dirname(os.path.abspath(__file__))
ROOT = os.path.dirname(os.path.dirname(HERE))
RULES = os.path.join(ROOT, "crates", "rules")
HOW = {
    "build": builds.build,
    "links": builds.links,
    "search": builds.search,
    "descent": descents.descent,
    "iterate": descents.iterate,
    "relay": relays.relay,
}


def text_of(*path):
    return open(os.path.join(*path)).read()


def modules():
    return re.findall(r"^pub mod (\w+)", text_of(RULES, "specs", "Lib.antt"), re.M)


def unfoldables():
    names = []
    for module in modules():
        text = text_of(RULES, "specs", module + ".antt")
        names += [f"{module}.{name}" for name in re.findall(r"^\s*unfoldable pub (\S+) :", text, re.M)]
    floats = ["of_bits", "to_bits", "add", "sub", "mul", "div", "lt", "le", "eq"]
    return names + ["lib.Ieee." + name for name in floats]


def stated(path):
    w = Writer()
    for case in cases(path):
        r = Reader(case)
        if r.kind != "end":
            HOW[r.kind](r, w)
            w.did(r.kind)
    return w


def write(w, folder):
    unfolding = "unfolding " + " ".join(unfoldables())
    # The rulebook's modules are used behind the first part of computed.txt, which ends at an empty line.
    head, helpers = text_of(HERE, "computed.txt").split("\n\n", 1)
    uses = "".join(f"use Rattle.rules.specs.{m} as {m}\n" for m in modules())
    lines = [f"{head}\n{uses}\n{helpers}"]
    for name, left, right in w.out:
        lines.append(f"{name} : {left} ≡ {right}\n{unfolding}\n{name} = refl\n")
    os.makedirs(os.path.join(folder, "proofs"))
    open(os.path.join(folder, "proofs", "Lib.antt"), "w").write("pub mod Computed\n")
    open(os.path.join(folder, "proofs", "Computed.antt"), "w").write("\n".join(lines))


def checked(w):
    with tempfile.TemporaryDirectory() as top:
        folder = os.path.join(top, "crates", "rules")
        os.makedirs(folder)
        open(os.path.join(top, "crates.txt"), "w").write("rules:\n")
        for part in ("src", "specs"):
            shutil.copytree(os.path.join(RULES, part), os.path.join(folder, part))
        write(w, folder)
        return subprocess.run(["rt", "check"], capture_output=True, text=True, cwd=folder)


def main():
    w = stated(sys.argv[1] if len(sys.argv) > 1 else os.path.join(ROOT, "oracle", "lists", "small.txt"))
    done = checked(w)
    text = done.stdout + done.stderr
    wrong = [line for line in text.splitlines() if "error" in line]
    for line in wrong[:20]:
        print(line[:400])
    if done.returncode != 0 or wrong:
        print(text[-2000:] if not wrong else "")
        raise SystemExit(f"compute-rules: FAILED, {len(wrong)} errors in {len(w.out)} statements")
    counts = ", ".join(f"{n} {kind}" for kind, n in w.count.items())
    print(f"compute-rules: {counts} cases; {len(w.out)} values computed, all as the Rust has them")


main()
