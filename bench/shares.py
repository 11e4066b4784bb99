#!/usr/bin/env python3
"""Keeps the named parts of a module apart (`apart MODULE NEW`), and prints each part's share of the instructions (`table FOLDER`)."""
import re
import subprocess
import sys
from pathlib import Path

# The parts of the table, none within another, and the functions that each is.
ZEROED = ("buffers::zero_words", "buffers::zero_floats")
PARTS = {
    "build": {
        "row 10": ("pairs::first_unfit",),
        "exact lists: distances": ("exact::distances_eight",),
        "exact lists: pushes": ("exact::list_of",),
        "candidates: hops": ("hops::candidates",),
        "candidates: distances": ("exact::distances_to",),
        "candidates: sort": ("lists::sort",),
        "pruning": ("prune::choose",),
        "reverse links": ("links::link_all",),
        "zeroing": ZEROED,
    },
    "search": {
        "row 7": ("table::first_bad_root",),
        "distances": ("metrics::query_distance",),
        "pushes": ("lists::push",),
        "joins": ("expand::take_these",),
        "zeroing": ZEROED,
    },
    "iterate": {
        "row 10": ("pairs::first_unfit",),
        "row 12": ("descent_state::descent_formed",),
        "distances": ("metrics::between",),
        "offers": ("steps::offer",),
        "marks": ("visits::visit",),
        "new contexts": ("renewals::renew_state",),
        "zeroing": ZEROED,
    },
}


def apart(module, new):
    names = {name for parts in PARTS.values() for found in parts.values() for name in found}
    lines = []
    for line in Path(module).read_text().split("\n"):
        found = re.match(r'define .*@"?([\w:]+)"?\(', line)
        if found and found.group(1) in names:
            line = re.sub(r"\{$", "noinline {", line) if " #" not in line else re.sub(r" (#\d+)", r" noinline \1", line, count=1)
        lines.append(line)
    Path(new).write_text("\n".join(lines))


def inclusive(path):
    said = subprocess.run(["callgrind_annotate", "--inclusive=yes", "--threshold=100", str(path)], capture_output=True, text=True, check=True).stdout
    counts = {}
    for line in said.split("\n"):
        found = re.match(r"\s*([\d,]+) (?:\([ \d.]+%\) )?.*?([\w]+::[\w]+|spoonmeadow_\w+|PROGRAM TOTALS)", line)
        if found:
            counts.setdefault(found.group(2), int(found.group(1).replace(",", "")))
    return counts


def table(folder):
    for entry, parts in PARTS.items():
        runs = sorted(Path(folder).glob(entry + ".*"), key=lambda p: [int(x) for x in p.name.split(".")[1:]])
        print("| %s, n and lanes | instructions, million | %s | the rest |" % (entry, " | ".join(parts)))
        print("|---" * (len(parts) + 3) + "|")
        for run in runs:
            counts = inclusive(run)
            whole = counts["spoonmeadow_" + entry]
            shares = [100 * sum(counts.get(name, 0) for name in names) / whole for names in parts.values()]
            cells = ["%.0f %%" % s if s >= 0.5 else "-" for s in shares]
            print("| %s | %s | %s | %.0f %% |" % (", ".join(run.name.split(".")[1:]), "%.1f" % (whole / 1e6), " | ".join(cells), 100 - sum(shares)))
        print()


if __name__ == "__main__":
    {"apart": lambda: apart(sys.argv[2], sys.argv[3]), "table": lambda: table(sys.argv[2])}[sys.argv[1]]()
