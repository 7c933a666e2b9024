#!/usr/bin/env python3
"""Brings the repository's own definitions and lemmas to the spelling of today's Rattle, after port.py has turned the rest.

usage: python3 tools/respell.py [--list]      at the top of the repository; run once, right after port.py

Definitions and lemmas are in snake case (lowestBare is lowest_bare); a dash stays where it joins two names (spread-gather), and a plain
word is added with an underscore (every_set). Types, modules and facts keep their capitals. Names of functions of src/, exported names,
strings, inputs and outputs are not touched: only tokens that a file of specs/ or proofs/ declares are renamed, wherever they stand in
.antt files, in clauses and comments of .rt files and in must-fail edits. A definition that would have a function's name gets _of
(lowest_bare_of beside the function lowest_bare, key_from beside key_of), a lemma that would have a definition's gets _lem; what would still fall together stays, and is
printed. With --list nothing is written.
"""
import glob
import os
import re
import sys

TOKEN = re.compile(r"[^\s(){}\[\].,;:=«»⟨⟩\"`|λ→×+*<>≤≡≢∷∙?]+")
SIGN = re.compile(r"^ {0,2}((?:(?:unfoldable|abbrev|opaque|pub|data|record|mutual|private)\s+)*)([^\s:(){}]+)(?:\s+(?:\{[^}]*\}|\([^)]*\))|\s+[^\s:(){}]+)*\s*:\s")
OUR = "Rattle."
FOREIGN = ("Rattle.std", "Prim", "mathlib", "native", "lib.", "borrow", "denote")
SKIP = {"use", "module", "where", "let", "in", "elim", "unfolding", "pub", "abbrev", "--", "ruleset"}


def files():
    for pattern in ("specs", "proofs"):
        yield from sorted(glob.glob(f"crates/*/{pattern}/**/*.antt", recursive=True))


def sources():
    yield from sorted(glob.glob("crates/*/src/**/*.rt", recursive=True))


def edits():
    yield from sorted(glob.glob("crates/*/must-fail/*.edit"))


def read(path):
    with open(path, encoding="utf-8") as f:
        return f.read()


def imported(text):
    """The names that `use` lines bring in from libraries that are not the repository's."""
    found = set()
    for line in text.splitlines():
        m = re.match(r"\s*(?:pub )?(?:ghost )?use ([^\s{]+?)\.?\{(.*)\}", line)
        if m and m.group(1).startswith(FOREIGN):
            for item in m.group(2).split(","):
                for word in item.replace(" as ", " ").split():
                    found.add(word)
    return found


def camel(part):
    if not part[:1].islower():
        return part
    return re.sub(r"(?<=[a-z0-9])([A-Z])", lambda m: "_" + m.group(1).lower(), part)


def spelled(name, known):
    parts = [camel(p) for p in name.split("-")]
    if any(p == "" for p in parts):
        return name
    chunks = []
    at = 0
    while at < len(parts):
        size = 1
        for n in range(len(parts) - at, 1, -1):
            if "_".join(parts[at:at + n]) in known:
                size = n
                break
        chunks.append("_".join(parts[at:at + size]))
        at += size
    text = chunks[0]
    for left, right in zip(chunks, chunks[1:]):
        text += ("-" if left in known and right in known else "_") + right
    return text


def main():
    listing = "--list" in sys.argv
    texts = {p: read(p) for p in files()}
    codes = {p: read(p) for p in sources()}
    changes = {p: read(p) for p in edits()}
    foreign = set()
    for t in list(texts.values()) + list(codes.values()):
        foreign |= imported(t)
    declared, words = set(), set()
    for path, text in texts.items():
        if path.endswith(("Proof.antt", "Answers.antt", "Invariants.antt")):
            continue
        for line in text.splitlines():
            m = SIGN.match(line)
            if m and m.group(2) not in SKIP and not line.lstrip().startswith(("--", "use ", "let ", "module ")):
                declared.add(m.group(2))
                if re.search(r"\b(unfoldable|abbrev|data|record)\b", m.group(1)):
                    words.add(m.group(2))
    functions = set()
    for text in codes.values():
        functions |= set(re.findall(r"\bfn (\w+)", text))
    known = {camel(w) for w in words if "-" not in w} | functions | {w for w in foreign if re.fullmatch(r"[a-z_]+", w)} | {w for w in words if w[:1].isupper()}
    table = {}
    for name in declared:
        if name in foreign or not name[:1].islower() or name in functions:
            continue
        new = spelled(name, known)
        if new != name:
            table[name] = new
    tokens = {p: set(TOKEN.findall(t)) for p, t in list(texts.items()) + list(codes.items())}
    # Definitions first: one that would have its function's name says what it returns, as lowest_bare_of; a lemma that would have its
    # definition's name gets _lem.
    taken = {p: set(has) for p, has in tokens.items()}
    for old in sorted(table, key=lambda o: (not re.search(r"[a-z0-9][A-Z]", o), o)):
        first = table[old]
        places = [p for p in taken if old in tokens[p]]
        word = re.search(r"[a-z0-9][A-Z]", old) and "-" not in old
        for new in (first, *((first[:-3] + "_from", first[:-3] + "_at") if first.endswith("_of") and word else (first + ("_of" if word else "_lem"),))):
            if new not in functions and new not in foreign and all(new not in taken[p] for p in places):
                table[old] = new
                for p in places:
                    taken[p].add(new)
                break
        else:
            print(f"stays: {old} (not {first}: it would fall together)")
            del table[old]
    print(f"renamed: {len(table)}")
    if listing:
        for old, new in sorted(table.items()):
            print(f"  {old} -> {new}")
        return

    def turned(text):
        return TOKEN.sub(lambda m: table.get(m.group(0), m.group(0)), text)

    for path, text in list(texts.items()) + list(codes.items()) + list(changes.items()):
        new = turned(text)
        if new != text:
            with open(path, "w", encoding="utf-8") as f:
                f.write(new)
    os.makedirs("docs/moves", exist_ok=True)
    with open("docs/moves/respelled.txt", "w", encoding="utf-8") as f:
        f.write("# Definitions and lemmas whose spelling changed: the old name, as port.py left it, and the new one (tools/respell.py).\n")
        for old, new in sorted(table.items()):
            f.write(f"{old} {new}\n")


main()
