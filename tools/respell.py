#!/usr/bin/env python3
"""Respells this repository's own definitions and lemmas: values in snake case, types and facts in camel case.

usage: tools/respell.py [--list]      at the top of the checkout, once; --list only prints the names and where they would fall together

It reads what specs/*.antt and the lemma files of proofs/ declare, and turns those names in specs/, proofs/ and the clauses of src/.
Names of src/ (functions, types, fields, labels, ghost members) and the goals that the check names keep their spelling.
"""

import os
import re
import sys

WORD = re.compile(r"[^\s(){}\[\],;.:\"«»]+")
DECLARED = re.compile(r"^\s*(?:abbrev |unfoldable )?(?:pub )?(?:record |data )?(?:pub )?([^\s(){}\[\],;.:\"«»]+)((?:\s+[({][^)}]*[)}])*)\s*:(?:\s|$)(.*)")
FOREIGN = re.compile(r"use ((?:Rattle\.std|borrow|native|mathlib|lib|Prim|denote)[^\s{]*)\.\{([^}]*)\}")
GOALS = ("Answers.antt", "Invariants.antt", "Given.antt", "Goals.antt", "Proof.antt")
# names that would fall together with others, and facts that had the spelling of a value
CHOSEN = {
    "seen-in": "seen_in_step", "entriesIn": "entries_of_table", "Reads-back": "IsReadBack", "Too-short": "IsTooShort",
    "burst-carries": "BurstCarries", "zero-carries": "ZeroCarries", "gear-carries": "GearCarries", "entry-fits": "EntryFits",
}
KEYWORDS = {"use", "module", "where", "let", "in", "elim", "mod", "unfolding", "infix", "infixl", "infixr", "ruleset", "as"}


def files(root):
    for folder, dirs, names in os.walk(os.path.join(root, "crates")):
        dirs[:] = sorted(d for d in dirs if d != "out")
        for n in sorted(names):
            if n.endswith((".antt", ".rt")):
                yield os.path.join(folder, n)


def respelled(name):
    if name in CHOSEN:
        return CHOSEN[name]
    if not re.search(r"[A-Za-z]-[A-Za-z0-9]|[a-z0-9][A-Z]|-", name) or not re.fullmatch(r"[A-Za-z0-9_'\-]+", name):
        return name
    if name[0].isupper():
        return "".join(p[:1].upper() + p[1:] for p in name.split("-"))
    name = re.sub(r"(?<=[a-z0-9])([A-Z])", lambda m: "-" + m.group(1).lower(), name)
    return name.replace("-", "_")


def declared(path, text):
    goals = os.path.basename(path) in GOALS
    for line in text.splitlines():
        if line.strip().startswith("--"):
            continue
        m = DECLARED.match(line)
        if not m or m.group(1) in KEYWORDS:
            continue
        if goals and (line.startswith(" ") or "goal." in m.group(3)):
            continue
        yield m.group(1)


def fields_of(text):
    inside = None
    for line in text.splitlines():
        if not line.strip() or line.strip().startswith("--"):
            continue
        depth = len(line) - len(line.lstrip())
        if inside is not None and depth <= inside:
            inside = None
        if inside is not None:
            m = DECLARED.match(line)
            if m:
                yield m.group(1)
        if re.match(r"\s*(pub )?record ", line) and line.rstrip().endswith("where"):
            inside = depth


def code(text):
    """Pieces of a .rt file: (is it a clause or an import of ghost names, text)."""
    out, at = [], 0
    for m in re.finditer(r"ghost use [^;]*;|(?:requires|ensures)\*?(?: \w+)? \{|ghost \w+(?::|\s*=) \{", text):
        if m.start() < at:
            continue
        end = m.end()
        if not text[m.start():m.end()].startswith("ghost use"):
            depth = 1
            while depth:
                depth += {"{": 1, "}": -1}.get(text[end], 0)
                end += 1
        out.append((False, text[at:m.start()]))
        out.append((True, text[m.start():end]))
        at = end
    out.append((False, text[at:]))
    return out


def main():
    root = os.getcwd()
    texts = {p: open(p, encoding="utf-8").read() for p in files(root)}
    names, fields, foreign, words, rust = {}, set(), {}, set(), set()
    for p, t in texts.items():
        for m in FOREIGN.finditer(t):
            for w in WORD.findall(m.group(2)):
                foreign.setdefault(w, set()).add(os.path.relpath(p, root))
        words.update(WORD.findall(t))
        if p.endswith(".antt"):
            for n in declared(p, t):
                names.setdefault(n, set()).add(os.path.relpath(p, root))
            fields.update(fields_of(t))
        else:
            for ghost, piece in code(t):
                if not ghost:
                    rust.update(re.findall(r"\w+", re.sub(r"//[^\n]*", "", piece)))
    turn = {n: respelled(n) for n in names if respelled(n) != n}
    for n in sorted(turn):
        to = turn[n]
        if n in foreign:
            print(f"a library's too: {n} ({', '.join(sorted(names[n]))}; imported in {', '.join(sorted(foreign[n]))})")
        if to in words and to not in rust:
            print(f"in use already: {n} -> {to} ({', '.join(sorted(names[n]))})")
        if to in rust:
            print(f"a name of src/ too: {n} -> {to} ({', '.join(sorted(names[n]))})")
    back = {}
    for n, to in turn.items():
        back.setdefault(to, []).append(n)
    for to, ns in back.items():
        if len(ns) > 1:
            print(f"fall together: {ns} -> {to}")
    if "--list" in sys.argv[1:]:
        for n in sorted(turn):
            print(n, "->", turn[n])
        return
    count = 0
    for p, t in texts.items():
        skip = {w for m in FOREIGN.finditer(t) for w in WORD.findall(m.group(2))}

        def swap(m):
            n = m.group()
            # behind a dot stands a record's field, or a step that the check names
            behind = m.start() > 0 and m.string[m.start() - 1] == "."
            return turn[n] if n in turn and n not in skip and (n in fields or not behind) else n

        if p.endswith(".antt"):
            new = WORD.sub(swap, t)
        else:
            new = "".join(WORD.sub(swap, piece) if ghost else piece for ghost, piece in code(t))
        if new != t:
            count += 1
            with open(p, "w", encoding="utf-8") as f:
                f.write(new)
    print(f"{len(turn)} names, {count} files")


main()
