"""Edits that keep the shape of a crate's code and definitions and change one thing."""
import collections
import os
import re

# file: its path in the crate; start, end: the text replaced; new: what stands there instead; kind: what was changed; name: the function or definition
Edit = collections.namedtuple("Edit", "file start end new kind name")

CODE_OPERATORS = {
    "<": ["<="], "<=": ["<"], ">": [">="], ">=": [">"], "==": ["!="], "!=": ["=="], "&&": ["||"], "||": ["&&"], "+": ["-"], "-": ["+"],
    "*": ["+"], "/": ["*"], "%": ["/"], "<<": [">>"], ">>": ["<<"], "&": ["|"], "|": ["&"], "+=": ["-="], "-=": ["+="],
}
RULE_OPERATORS = {
    "&&": ["||"], "||": ["&&"], "+": ["-"], "-": ["+"], "*": ["+"], "%": ["+"], "≤": ["<"], "<": ["≤"],
}
RULE_WORDS = {
    "leb": ["ltb"], "ltb": ["leb"], "eqb": ["leb"], "true": ["false"], "false": ["true"], "take": ["drop"], "drop": ["take"],
    "lt": ["le"], "eq": ["lt"], "add": ["sub"], "sub": ["add"], "mul": ["add"], "div": ["mul"],
}
COMPARED = re.compile(r"(<=|>=|<|>|==|!=|leb|ltb|outside|≤) ?[(]?$")


def close_of(text, start, left, right):
    """The place behind the bracket that closes the one at start."""
    depth = 0
    for i in range(start, len(text)):
        depth += {left: 1, right: -1}.get(text[i], 0)
        if depth == 0:
            return i + 1
    return len(text)


def bodies(text):
    """Name, signature, start and end of the body of each function of a .rt file."""
    # type parameters may hold an arrow (`F: Fn(u32) -> T`) and types with parameters of their own
    for m in re.finditer(r"^\s*(?:pub(?:\(\w+\))? )?(?:extern \"C\" )?fn (\w+)(?:<(?:->|<[^<>\n]*>|[^<>\n])*>)?\(", text, re.M):
        at = close_of(text, m.end() - 1, "(", ")")
        signature = text[m.end():at - 1]
        while True:
            contract = re.compile(r"\s*(?:-> [^\n{]*?)?\s*(requires|ensures|decreases)\*?(?: \w+)?\s*\{").match(text, at)
            if not contract:
                break
            at = close_of(text, contract.end() - 1, "{", "}")
        start = text.index("{", at)
        yield m.group(1), signature, start, close_of(text, start, "{", "}")


def numbers(text, start, end):
    """Each whole number one more and one less, each decimal one more or twice as much."""
    for m in re.finditer(r"(?<![\w.])(0x[0-9A-Fa-f_]+|\d[\d_]*)(?![\w.])", text[start:end]):
        value = int(m.group(1).replace("_", ""), 0)
        shape = (lambda v: hex(v)) if m.group(1).startswith("0x") else str
        kind = "bound" if COMPARED.search(text[:start + m.start()]) else "constant"
        for new in ([value + 1] if value == 0 else [value + 1, value - 1]):
            yield start + m.start(), start + m.end(), shape(new), kind
    for m in re.finditer(r"(?<![\w.])\d+(?=\.\d)", text[start:end]):
        value = int(m.group(0))
        # one more may be the same binary32: then twice as much
        yield start + m.start(), start + m.end(), str(value + 1 if value < 1 << 24 else 2 * value), "constant"


def swapped_words(text, start, end, table, pattern, kind):
    for m in re.finditer(pattern, text[start:end]):
        for new in table.get(m.group(1), []):
            yield start + m.start(1), start + m.end(1), new, kind


def same_kind(text, start, end, typed):
    """Each use of a variable, another of its type instead."""
    for name, kind in typed.items():
        others = [o for o, k in typed.items() if k == kind and o != name]
        if not others:
            continue
        for m in re.finditer(r"(?<![\w.'-])%s(?![\w'-])(?!\s*[:(])" % re.escape(name), text[start:end]):
            before = text[max(0, start + m.start() - 8):start + m.start()]
            if before.endswith(("let ", "mut ", "λ (")):
                continue
            for other in others:
                yield start + m.start(), start + m.end(), other, "operand"


def statements(text, start, end):
    """Simple statements of one line, with their indentation, but no steps of a counter."""
    for m in re.finditer(r"^( +)([\w*].*;)\n", text[start:end], re.M):
        if not m.group(2).startswith(("let ", "return", "break")) and not re.match(r"\w+ [+-]= \w+;", m.group(2)):
            yield start + m.start(), start + m.end(), len(m.group(1)), m.group(0)


def code_moves(whole, text, start, end):
    """A statement left out, two statements the other way round, a row whose test never holds, an index fixed, two arguments swapped; `whole` is the text as it stands."""
    seen = list(statements(text, start, end))
    for s, e, _, _ in seen:
        yield s, e, "", "left out"
    for (s, e, i, a), (t, f, j, b) in zip(seen, seen[1:]):
        if e == t and i == j and a != b:
            yield s, f, whole[t:f] + whole[s:e], "order"
    for m in re.finditer(r"^( +)if ([^\n]*) \{\n +return [^\n]*;\n\1\}\n", text[start:end], re.M):
        yield start + m.start(2), start + m.end(2), "(" + whole[start + m.start(2):start + m.end(2)] + ") & false", "row left out"
    for m in re.finditer(r"\[([^\[\]]+)\]", text[start:end]):
        if re.fullmatch(r"[a-z]\w*( [+*-] .+)?", m.group(1)) and ".." not in m.group(1):
            yield start + m.start(1), start + m.end(1), "0", "index"
    for m in re.finditer(r"\w\(((?:&mut |&)?\w+), ((?:&mut |&)?\w+)(?=[,)])", text[start:end]):
        if m.group(1) != m.group(2):
            yield start + m.start(1), start + m.end(2), m.group(2) + ", " + m.group(1), "order"


def masked(text):
    """The text with comments and strings blanked, so that nothing in them is edited."""
    return re.sub(r"//[^\n]*|(?<!extern )\"(?:[^\"\\]|\\.)*\"", lambda m: re.sub(r"[^\n]", "~", m.group(0)), text)


def changed(file, name, plain, within, typed, words, moves):
    """The edits of one body: words for words, numbers, variables, and what is moved or left out."""
    found = [edit for table, pattern, kind in words for edit in swapped_words(plain, *within, table, pattern, kind)]
    found += [*numbers(plain, *within), *same_kind(plain, *within, typed), *moves(plain, *within)]
    for start, end, new, kind in found:
        yield Edit(file, start, end, new, kind, name)


def of_code(file, text):
    plain = masked(text)
    words = [
        (CODE_OPERATORS, r"(?<= )([<>=!&|+*/%-]{1,2})(?= )", "operator"),
        ({"true": ["false"], "false": ["true"]}, r"\b(true|false)\b", "constant"),
    ]
    for name, signature, start, end in bodies(plain):
        typed = dict(re.findall(r"(\w+): ([^,=;]+?)(?=[,\s]*(?:$|,|\n))", signature, re.M))
        typed.update(re.findall(r"let (?:mut )?(\w+): ([^=;]+?) =", plain[start:end]))
        yield from changed(file, name, plain, (start, end), typed, words, lambda *at: code_moves(text, *at))
    for m in re.finditer(r"^(?:pub )?const (\w+): [^=]+ = ([^;]+);", plain, re.M):
        yield from (Edit(file, start, end, new, "constant", m.group(1)) for start, end, new, _ in numbers(plain, *m.span(2)))


def argument_types(signature):
    """The types in front of a signature's arrows, each with the names it gives."""
    depth, last, parts = 0, 0, []
    for i, c in enumerate(signature):
        depth += {"(": 1, "{": 1, ")": -1, "}": -1}.get(c, 0)
        if c == "→" and depth == 0:
            parts.append(signature[last:i].strip())
            last = i + 1
    return parts


def clauses(text):
    """Name, bound variables with their types, start and end of the body of each clause of a .antt file."""
    lines, at, types = text.split("\n"), 0, []
    starts = []
    for line in lines:
        starts.append(at)
        at += len(line) + 1
    for i, line in enumerate(lines):
        indent = len(line) - len(line.lstrip())
        head = re.match(r"\s*(?:abbrev |unfoldable |pub )*([^\s:(){}]+) : (.*)", line)
        if head and " = " not in line.split("→")[-1]:
            types = argument_types(head.group(2))
            continue
        clause = re.match(r"\s*([^\s:(){}]+)((?: [^=\n]*)?) =(?:$| )", line)
        if not clause or re.match(r"\s*(use|let|record|module|pub|--|[|])", line):
            continue
        j = i + 1
        while j < len(lines) and lines[j].strip() and len(lines[j]) - len(lines[j].lstrip()) > indent:
            j += 1
        words = re.findall(r"[^\s(){}]+|\([^()]*\)", clause.group(2))
        typed = {w: t for w, t in zip(words, types) if re.fullmatch(r"[a-z][\w'-]*", w)}
        yield clause.group(1), typed, starts[i] + clause.end(), starts[j] - 1 if j < len(lines) else len(text)


def fields(text):
    """Name, parameters with their types, start and end of what each field of a record says."""
    for m in re.finditer(r"^(?:pub )?record ([^\s:(){}]+)([^\n]*) : Type 0 where\n((?: +[^\n]*\n|\n)*)", text, re.M):
        groups = re.findall(r"[({]([^:(){}]+) : ([^(){}]+)[)}]", m.group(2))
        typed = {name: kind for names, kind in groups for name in names.split()}
        for f in re.finditer(r"^ +pub [^\s:]+ : ([^\n]*)$", m.group(3), re.M):
            yield m.group(1), typed, m.start(3) + f.start(1), m.start(3) + f.end(1)


def rule_moves(text, start, end):
    """A row or a link of a chain left out, two neighbouring words in brackets the other way round."""
    for m in re.finditer(r"^ +(?:∷|\+\+) [^\n]*\n(?= +(?:∷|\+\+))", text[start:end], re.M):
        yield start + m.start(), start + m.end(), "", "row left out"
    for m in re.finditer(r"(?<=[ (])([a-z][\w'-]*) ([a-z][\w'-]*)(?=\))", text[start:end]):
        if m.group(1) != m.group(2):
            yield start + m.start(1), start + m.end(2), m.group(2) + " " + m.group(1), "order"


def of_rules(file, text):
    plain = re.sub(r"--[^\n]*", lambda m: "~" * len(m.group(0)), text)
    # a word that the file does not bring in would give no definition
    usable = {old: [new for new in others if re.search(r"(?<![\w-])%s(?![\w-])" % new, plain)] for old, others in RULE_WORDS.items()}
    words = [(RULE_OPERATORS, r"(?<= )([&|+*%≤<-]{1,2})(?= )", "operator"), (usable, r"(?<![\w'.-])([a-z]+)(?![\w'-])", "operator")]
    for name, typed, start, end in list(clauses(plain)) + list(fields(plain)):
        yield from changed(file, name, plain, (start, end), typed, words, rule_moves)


def of_crate(folder):
    """Every edit of a crate, in the order of its files."""
    for part, ending, made in (("src", ".rt", of_code), ("specs", ".antt", of_rules)):
        where = os.path.join(folder, part)
        for base, _, files in sorted(os.walk(where)):
            for f in sorted(files):
                if f.endswith(ending):
                    path = os.path.join(base, f)
                    with open(path, encoding="utf-8") as handle:
                        yield from made(os.path.relpath(path, folder), handle.read())
