#!/usr/bin/env python3
"""Lists the places in crates/*/src that docs/DESIGN-PASS.md counts, point by point.

usage: tools/places.py [POINT] [FOLDER]   (with no point: how many lines each point has)
Tests, comments and clauses are passed over, but for point 5, which reads the clauses.
"""
import collections
import itertools
import pathlib
import re
import sys

CLAUSE = re.compile(r"^\s*(requires|ensures|ghost)\b")
PATTERNS = {
    1: [r"^\s*(pub(\(crate\))? )?enum ", r"^\s*(pub(\(crate\))? )?\w+: bool,", r"\b\w+: bool\b",
        r"\bcode: u8", r"Result<\w+, u\d+>", r"=> \(?\d+(,|\b)"],
    3: [r"\bfor \w+ in [^{]*\.\.", r"\.enumerate\(\)", r"\bwhile ", r"\w\[[^\]]+\] = ", r"\b\w+ [+-]= 1;"],
    4: [r"\bfn fault\(", r"Ok\((\w+)\) => Ok\(\1\)", r"Err\(\w+\) => Err\(", r"\bfn (misread|numbered|compared|of_channel|told_figures|copied)\b",
        r"\bfn (print|put)_\w+", r"\bimpl.* (From|TryFrom|Display)\b.* for "],
    6: [r"\[[\w]+; *\w+\]", r"\[\[\w+; *\w+\]; *\w+\]", r"^\s*(pub(\(crate\))? )?count: (usize|u32),", r"\bat: (usize|&mut usize),"],
    7: [r"\bfn .*\b\w+: bool\b", r"^    \w+: bool,"],
}


def sources(root):
    for path in sorted(root.glob("crates/*/src/**/*.rt")):
        if path.name == "tests.rt" or "tests" in path.parts:
            continue
        text = path.read_text().split("#[cfg(test)]\nmod tests {")[0]
        yield path.relative_to(root), text


def code_lines(text):
    for number, line in enumerate(text.split("\n"), 1):
        if not CLAUSE.match(line) and not line.lstrip().startswith("//"):
            yield number, line


def by_pattern(root, point):
    tests = [re.compile(p) for p in PATTERNS[point]]
    for path, text in sources(root):
        for number, line in code_lines(text):
            if any(t.search(line) for t in tests):
                yield f"{path}:{number}: {line.strip()}"


def functions(text):
    """Each function's signature and body, without clauses and comments."""
    lines = [line for _, line in code_lines(text)]
    start = None
    for i, line in enumerate(lines):
        if re.match(r"\s*(pub(\(crate\))? )?fn \w+", line):
            start = i
            indent = len(line) - len(line.lstrip())
        if start is not None and line == " " * indent + "}":
            yield "\n".join(lines[start:i + 1])
            start = None


def shape(text):
    """The tokens, with names in the order in which they come, and no numbers, texts or number types."""
    names = {}
    out = []
    for token in re.findall(r"b?\"[^\"]*\"|\b\d\w*\b|\b[A-Za-z_]\w*\b|[^\s\w]", text):
        if re.match(r"b?\"|\d", token):
            out.append("#")
        elif re.fullmatch(r"[ui](8|16|32|64|size)", token):
            out.append("int")
        elif re.match(r"[A-Za-z_]", token) and token not in {"fn", "pub", "if", "else", "for", "in", "match", "return", "let", "mut", "self", "Ok", "Err", "Some", "None"}:
            out.append("n%d" % names.setdefault(token, len(names)))
        elif token != "," and token != "pub":
            out.append(token)
    return tuple(out)


def twins(root):
    groups = collections.defaultdict(list)
    for path, text in sources(root):
        for body in functions(text):
            name = re.search(r"fn (\w+)", body).group(1)
            key = shape(re.sub(r"pub(\(crate\))? ", "", body))
            if len(key) >= 24:
                groups[key].append(f"{path}: {name}")
    for group in groups.values():
        if len(group) > 1:
            yield " = ".join(group)


def facts(root):
    """Facts that stand in the contracts of three functions of a crate or more, and parameters that travel together so often."""
    seen = collections.defaultdict(set)
    together = collections.defaultdict(set)
    for path, text in sources(root):
        crate = path.parts[1]
        name = None
        for line in text.split("\n"):
            found = re.match(r"\s*(?:pub(?:\(crate\))? )?fn (\w+)[^(]*\((.*)", line)
            if found:
                name = f"{path.name}:{found.group(1)}"
                parameters = sorted(re.findall(r"(\w+): ", found.group(2)))
                for group in itertools.combinations(parameters, 3):
                    together[crate, group].add(name)
            clause = re.match(r"\s*requires \w*\s*\{ (.*) \}", line)
            if clause and name:
                for fact in re.split(r" × ", clause.group(1)):
                    fact = re.sub(r"\.(now|old|new)\b", "", fact.strip())
                    while fact.startswith("(") and fact.count("(") > fact.count(")") or fact.startswith("(") and fact.endswith(")"):
                        fact = fact[1:-1] if fact.endswith(")") else fact[1:]
                    seen[crate, fact.rstrip(")") if fact.count(")") > fact.count("(") else fact].add(name)
    for (crate, fact), where in sorted(seen.items()):
        if len(where) >= 3:
            yield f"{crate}: {fact}: {', '.join(sorted(where))}"
    for (crate, group), where in sorted(together.items()):
        if len(where) >= 3:
            yield f"{crate}: {', '.join(group)} together: {', '.join(sorted(where))}"


def proofs(root):
    for crate in sorted(root.glob("crates/*/proofs")):
        lines = sum(len(p.read_text().split("\n")) - 1 for p in crate.rglob("*.antt"))
        answers = len(list(crate.rglob("Answers.antt")))
        if lines:
            yield f"{crate.parent.name}: {lines} lines, {answers} files of answers"


def places(root, point):
    if point == 2:
        return list(twins(root))
    if point == 5:
        return list(facts(root))
    if point == 8:
        return list(proofs(root))
    return list(by_pattern(root, point))


def main():
    points = [int(a) for a in sys.argv[1:] if a.isdigit()]
    folders = [a for a in sys.argv[1:] if not a.isdigit()]
    root = pathlib.Path(folders[0] if folders else ".")
    if points:
        print("\n".join(places(root, points[0])))
        return
    for point in range(1, 9):
        print(f"point {point}: {len(places(root, point))} lines")


main()
