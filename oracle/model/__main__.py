"""A plain model of document 01's build, search, descent and relay, from its words and not from the Rust.

Reads a list with answers on stdin, works each case out anew and compares every number.
`--wrong NAME` takes one named wrong reading instead, to see that the list tells it apart; `--names` prints all of them.
"""
import sys

import readings
from cases import KINDS, Numbers, case_answer


def told_apart(numbers):
    """Whether the wrong reading fails on the case or gives another answer than the list."""
    try:
        _, said = case_answer(numbers)
    except (AssertionError, IndexError):
        return True
    return said != numbers.run(len(said))


def differs(numbers, case):
    """Whether the case's answer is another than the list's, and the name of its kind."""
    kind, said = case_answer(numbers)
    listed = numbers.run(len(said))
    if said != listed:
        at = next(i for i in range(len(said)) if said[i] != listed[i])
        print(f"case {case} ({kind}) differs at number {at} of its answer")
    return said != listed, kind


def compare(numbers):
    compared = {name: 0 for name, _ in KINDS}
    differing = 0
    while (case := numbers.one()) != 0:
        assert case == sum(compared.values()) + 1, "cases are numbered from 1 on"
        differ, kind = differs(numbers, case)
        compared[kind] += 1
        differing += differ
    total = sum(compared.values())
    assert numbers.one() == total, "the count at the end"
    assert numbers.at == len(numbers.numbers), "numbers after the end"
    kinds = ", ".join(f"{count} {name}" for name, count in compared.items() if count)
    print(f"{total} cases ({kinds}), {differing} differ")
    return 1 if differing else 0


def tell_apart(numbers):
    while (case := numbers.one()) != 0:
        if told_apart(numbers):
            print(f"{readings.taken}: case {case} tells it apart")
            return 1
    print(f"{readings.taken}: no case tells it apart")
    return 0


def main():
    if sys.argv[1:] == ["--names"]:
        print("\n".join(readings.WRONG_READINGS))
        return 0
    if sys.argv[1:2] == ["--wrong"]:
        readings.take(sys.argv[2])
    numbers = Numbers(sys.stdin.read())
    return tell_apart(numbers) if readings.taken else compare(numbers)


if __name__ == "__main__":
    sys.exit(main())
