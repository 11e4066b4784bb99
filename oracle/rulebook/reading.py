"""A list's cases, read: each is its lines, a label and numbers; labels between numbers are only for a person."""
import re


def cases(path):
    case = []
    for line in open(path):
        line = line.split("#")[0].strip()
        if not line:
            continue
        label = re.match(r"[a-z_-]+", line).group(0)
        if label in ("build", "search", "descent", "iterate", "relay", "links", "end") and case:
            yield case
            case = []
        case.append((label, [int(x) for x in re.findall(r"\d+", line)]))


class Reader:
    def __init__(self, case):
        self.lines = case[1:]
        self.kind = case[0][0]
        self.number = case[0][1][0]
        self.at = 0

    def take(self, label):
        found, numbers = self.lines[self.at]
        if found != label:
            raise SystemExit(f"case {self.number}: {label} wanted, {found} found")
        self.at += 1
        return numbers
