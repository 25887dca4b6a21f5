"""Lists the places in src/ that older forms of the language left, by the points of docs/DESIGN-PASS.md.

    python3 tools/places.py [FOLDER]     FOLDER is a checkout; this one, if none is named

It reads the text only. What it lists are candidates: a place that it lists may be as it should be.
"""

import re
import sys
from collections import defaultdict
from pathlib import Path

FUNCTION = re.compile(r"^(\s*)(?:pub(?:\(crate\))? )?(?:const )?fn (\w+)")
BOOLEAN_CHANGE = re.compile(r"&mut [^)]*\) -> bool")


def sources(root):
    for path in sorted(Path(root).glob("crates/*/src/**/*.rt")):
        yield path.relative_to(root), path.read_text().splitlines()


def functions(lines):
    """Each function: its name, its signature, its clauses and its body."""
    at = 0
    while at < len(lines):
        found = FUNCTION.match(lines[at])
        if not found:
            at += 1
            continue
        indent, name = found.groups()
        end = at
        while not (lines[end].startswith(indent + "}") or lines[end].rstrip().endswith((";", "{}"))):
            end += 1
        text = lines[at : end + 1]
        clauses = [line.strip() for line in text if line.strip().startswith(("requires", "ensures"))]
        opening = next((i for i, line in enumerate(text) if line == indent + "{" or line.endswith(" {")), None)
        head = text if opening is None else text[: opening + 1]
        signature = " ".join(l.strip() for l in head if l.strip() not in clauses)
        body = [] if opening is None else [line.strip() for line in text[opening + 1 : -1]]
        yield at + 1, name, signature, clauses, body
        at = end + 1


def skeleton(body):
    """A body with its names, types and numbers taken out."""
    text = re.sub(r"//.*", "", " ".join(body))
    text = re.sub(r'"[^"]*"', "S", text)
    keywords = {"let", "mut", "if", "else", "match", "for", "in", "return", "true", "false", "Some", "None", "Ok", "Err", "self", "as"}
    return re.sub(r"\w+", lambda word: word.group() if word.group() in keywords else "x", text)


def twins(root):
    groups = defaultdict(list)
    for path, lines in sources(root):
        for line, name, _, _, body in functions(lines):
            if len(" ".join(body)) > 45:
                groups[skeleton(body)].append(f"{path}:{line} {name}")
    return ["  ".join(group) for group in groups.values() if len(group) > 1]


def travelling(root):
    """Pairs of parameters that three or more functions of a crate have."""
    pairs = defaultdict(set)
    for path, lines in sources(root):
        crate = path.parts[1]
        for line, name, signature, _, _ in functions(lines):
            inside = signature[signature.find("(") + 1 :]
            names = sorted(set(re.findall(r"(\w+): &?(?:mut )?[\w<\[(&]", inside)))
            for i, one in enumerate(names):
                for other in names[i + 1 :]:
                    pairs[crate, one, other].add(name)
    return [f"{c}: {a}, {b} ({len(f)} functions)" for (c, a, b), f in sorted(pairs.items()) if len(f) > 2]


def repeated(root):
    """Clauses that three or more functions have."""
    clauses = defaultdict(set)
    for path, lines in sources(root):
        for line, name, _, owned, _ in functions(lines):
            for clause in owned:
                clauses[clause].add(f"{path}:{line}")
    return [f"{clause} ({len(f)} functions)" for clause, f in sorted(clauses.items()) if len(f) > 2]


def matching(root, pattern):
    expression = re.compile(pattern)
    return [
        f"{path}:{number} {line.strip()}"
        for path, lines in sources(root)
        for number, line in enumerate(lines, 1)
        if expression.search(line) and not line.lstrip().startswith(("//", "ghost", "requires", "ensures"))
    ]


def answers(root):
    found = []
    for path in sorted(Path(root).glob("crates/*/proofs/**/Answers.antt")):
        text = path.read_text()
        found += [f"{path.relative_to(root)} {name}" for name in re.findall(r"^pub (\S+) : ", text, re.M)]
    return found


def points(root):
    yield "1 flags with a value beside them, numbers for kinds, a Result in a Result", (
        matching(root, r"form: Form|value: u8|Result<Result|fn of\((number|bytes)?: ?u8|fn \w+_of\(number|match (number|value) \{")
        + matching(root, BOOLEAN_CHANGE.pattern)
    )
    yield "2 functions whose bodies differ in names, types and numbers only (groups)", twins(root)
    yield "3 loops that count an index", matching(root, r"\bfor \w+ in 0\.\.")
    yield "4 equality, conversion, copying and printing by hand", (
        matching(root, r"fn (of|number|words|words_of|word_of|number_of|\w*_number|position_of|is_point|is_signal|is_waiting|is_clear|duplicate|print_\w+|report_with|other)\b")
        + matching(root, r"number_of\(.*== number_of")
    )
    yield "5 parameters that travel together (pairs in a crate)", travelling(root)
    yield "5 clauses of three or more functions", repeated(root)
    yield "6 fixed tables, buffers with a length beside", matching(root, r"Bounded<|: \[.*; ?\d+\]|\) -> \[.*; ?\d+\]|count: usize|_count\b.*_count\b")
    yield "6 bounds tested by hand before an index or a slice", matching(root, r"(< |>= )\w+(\.\w+)*\.len\(\)|\.len\(\) (>|==|!=) \d|len\(\) - \d")
    yield "7 switches on a step, tables of functions", matching(root, r"enum (Demand|Turn|Form|Record|Meeting)\b|\bdyn |: fn\(|match \(?(self|demand|turn|self\.form|part)\b.* \{")
    yield "8 answers", answers(root)


def main():
    root = Path(sys.argv[1]) if len(sys.argv) > 1 else Path(__file__).resolve().parent.parent
    for title, places in points(root):
        print(f"{title}: {len(places)}")
        for place in places:
            print(f"    {place}")


main()
