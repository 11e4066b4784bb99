#!/usr/bin/env python3
"""Prints the table of instruction counts from callgrind's dumps: three a row, of the Rust, of ours and of the zeroing set apart."""
import sys
from pathlib import Path


def counted(dump):
    for line in dump.read_text().splitlines():
        if line.startswith(("summary:", "totals:")):
            return int(line.split()[1])
    return 0


def main():
    folder = Path(sys.argv[1])
    rows = (folder / "rows").read_text().splitlines()
    dumps = [folder / f"out.{i}" for i in range(1, 3 * len(rows) + 1)]
    counts = [counted(d) for d in dumps]
    print("| entry | n | lanes | style | k | Rust, instructions | ours | of it zeroing | Rust / ours | the same, zeroing set apart |")
    print("|---|---|---|---|---|---|---|---|---|---|")
    for i, row in enumerate(rows):
        rust, ours, zeroing = counts[3 * i : 3 * i + 3]
        # An empty count is the call alone.
        zeroing = zeroing if row.startswith("search") else 0
        print(f"| {row} | {rust:,} | {ours:,} | {zeroing:,} | {rust / ours:.2f} | {rust / (ours - zeroing):.2f} |")


if __name__ == "__main__":
    main()
