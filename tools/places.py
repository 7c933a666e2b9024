#!/usr/bin/env python3
"""Counts the places of the design pass in src/, point by point: tools/places.py [-v] [top of a checkout]. -v names each place."""
import glob
import os
import re
import sys

verbose = "-v" in sys.argv
top = next((a for a in sys.argv[1:] if a != "-v"), ".")


def sources():
    """Each file of src/, with its lines, comments left out."""
    for path in sorted(glob.glob(os.path.join(top, "crates/*/src/*.rt"))):
        lines = open(path, encoding="utf-8").read().split("\n")
        yield path, ["" if line.lstrip().startswith("//") else line for line in lines]


def functions():
    """Each function: where it stands, its name, its parameters and result in one line, and its clauses."""
    for path, lines in sources():
        for n, line in enumerate(lines):
            found = re.match(r"\s*(?:pub )?(?:extern \"C\" )?fn (\w+)", line)
            if not found:
                continue
            head = ""
            for more in lines[n:]:
                head += " " + more.strip()
                if more.rstrip().endswith("{") or more.strip() == "{":
                    break
            signature = re.split(r" requires | ensures ", head)[0]
            yield f"{os.path.relpath(path, top)}:{n + 1}", found.group(1), re.sub(r"\s+", " ", signature).strip(), head


def lines_with(pattern):
    for path, lines in sources():
        for n, line in enumerate(lines):
            if re.search(pattern, line):
                yield f"{os.path.relpath(path, top)}:{n + 1}: {line.strip()}"


def functions_with(test):
    for where, name, signature, head in functions():
        if test(name, signature, head):
            yield f"{where}: {signature}"


NONE = """first_repeated lowest_bare lowest_below unreached unreached_taken unlinked lowest_cut find_run first_crossed first_next first_near
first_past crossed_few crossed_many crossed_in next_off first_off first_uneven first_uneven_closed lowest_early lowest_of user_at
repeated_in met_in first_met""".split()
CODES = "first_failing third_to_fifth fan_first first_of_five one_by_one last_three told refusal".split()
TWINS = """wide long narrow fresh_points fresh_entries fresh_starts fresh_firsts fresh_stamps fresh_findings fresh_turned fresh_parts fresh_table
clear_stamps clear_turned clear selves first_left second_left upper lower larger ending further four eight each_hex sixteen_hex close_ring
close_polygon lowest_of lowest_early step_of next_of poly_of flag_of edge_of edge_crosses crossed_few crossed_many faults_in feeds_in
sweep_up sweep_down""".split()
BY_HAND = """wide long narrow flag_of bits size is_less upper lower larger ending further is_accepted is_loading is_holding is_early
refusal_number shape_number check_number finding_number finding_position finding_from reverse_in find_run run_end first_of swap""".split()


def both(signature, *words):
    return all(re.search(r"\b" + word, signature) for word in words)


POINTS = [
    ("1 a variant that stands for none", lines_with(r"^    (Nothing|Broken|Whole|Sound|Accepted),$")),
    ("1 a number that stands for none", functions_with(lambda n, s, h: n in NONE and re.search(r"-> usize$", s))),
    ("1 a number for a kind or a truth value", functions_with(
        lambda n, s, h: re.search(r"\b(which|check|finding): u8|\b(number|kept|own): u16|\bhigh: bool", s)
        or n in CODES and re.search(r"-> (u8|u16)$", s) or n in ("join", "sweep_down", "side_of") and re.search(r"-> (u8|usize)$", s))),
    ("2 functions that differ in a type, a size, a constant or a test", functions_with(lambda n, s, h: n in TWINS)),
    ("3 loops by `while` or `loop`", lines_with(r"^\s*(while|loop)\b")),
    ("4 conversions, order, search and copies by hand", functions_with(lambda n, s, h: n in BY_HAND and "Option" not in s)),
    ("4 fields copied one by one, or unpacked before use", lines_with(r"^        \w+: s\.\w+,$|^    let \w+ = \w\.\w+;$")),
    ("5 the points' bounds as a clause", functions_with(lambda n, s, h: "requires coords" in h)),
    ("5 arrays of one building as parameters", functions_with(lambda n, s, h: both(s, "entries: &", "starts: &"))),
    ("5 other parameters that travel together", functions_with(
        lambda n, s, h: both(s, "j: usize", "k: usize") or both(s, "au: i64", "av: i64") or both(s, "us: &", "vs: &") or both(s, "lus: &", "hus: &"))),
    ("6 parallel arrays, tables of indices, a buffer with its length", functions_with(
        lambda n, s, h: both(s, "us: &", "vs: &") or both(s, "ls: &", "hs: &") or both(s, "lus: &", "hus: &") or both(s, "head: &", "chain: &")
        or both(s, "out: &", "inn: &") or re.search(r"table: &\[u64; 1024\], count", s) or both(s, "findings: &", "parts: &"))),
    ("7 a flag or a number that says which step to run", functions_with(lambda n, s, h: re.search(r"\bhigh: bool|\bwhich: u8", s))),
]

for name, places in POINTS:
    found = list(places)
    print(f"{len(found):4}  {name}")
    if verbose:
        print("".join(f"        {place}\n" for place in found), end="")

proofs = [p for p in glob.glob(os.path.join(top, "crates/*/proofs/**/*.antt"), recursive=True) if os.path.basename(p) in ("Answers.antt", "Invariants.antt")]
print(f"{len(proofs):4}  8 files of answers and invariants, {sum(len(open(p, encoding='utf-8').read().splitlines()) for p in proofs)} lines")
print(f"{sum(len(lines) - 1 for _, lines in sources()):4}  lines of src/")
