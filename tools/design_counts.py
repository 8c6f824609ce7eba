#!/usr/bin/env python3
"""Counts, in crates/*/src and crates/*/proofs, the places that docs/DESIGN-PASS.md speaks of. `tools/design_counts.py -v` lists them."""
import collections
import glob
import re
import sys

FN = re.compile(r'(?m)^( *)(?:pub(?:\([a-z]+\))? )?(?:const )?(?:unsafe )?(?:extern "C" )?fn (\w+)(?:<[^>(]*>)?\(')
GROUPS = {
    "a price book's parts": ("map", "configs", "symbols", "ready"),
    "a code's parts": ("map", "configs"),
    "a block's parts": ("scan", "source", "inv_qm"),
    "a block's settings": ("shape", "settings", "bias", "scale"),
    "the room": ("choices", "row_a", "row_b"),
    "width and cap": ("width", "cap"),
    "contexts and values": ("contexts", "values"),
}


def functions(text):
    """Name, parameters, contract and body of each function."""
    for found in FN.finditer(text):
        at, depth = found.end(), 1
        while depth:
            depth += {"(": 1, ")": -1}.get(text[at], 0)
            at += 1
        body = re.compile(rf"(?m)^{found.group(1)}\{{|(?<=[^\n]) \{{\n").search(text, at)
        if not body:  # declared without a body
            continue
        end = re.compile(rf"(?m)^{found.group(1)}\}}").search(text, body.start())
        line = text.count("\n", 0, found.start()) + 1
        yield line, found.group(2), text[found.end() : at - 1], text[at : body.start()], text[body.start() : end.end()]


def parameters(text):
    return [part.split(":")[0].strip() for part in text.split(",") if ":" in part]


def clauses(contract):
    """The `requires` of a contract, without their names."""
    for text in re.findall(r"(?s)requires(?: \w+)? \{(.*?)\}\s*(?=requires|ensures|$)", contract):
        yield " ".join(text.split())


def count():
    places = collections.defaultdict(list)
    facts = collections.defaultdict(list)
    for path in sorted(glob.glob("crates/*/src/**/*.rt", recursive=True)):
        text = open(path, encoding="utf-8").read()
        lines = text.split("\n")

        def at(point, pattern):
            for number, line in enumerate(lines, 1):
                if re.search(pattern, line):
                    places[point].append(f"{path}:{number}: {line.strip()}")

        for found in re.finditer(r"(?ms)^(?:pub )?enum (\w+) \{(.*?)^\}", text):
            if re.search(r"\b(Refused|Stopped)\b", found.group(2)):
                places["1 own enums of the shape of Result or Option"].append(f"{path}: {found.group(1)}")
        at("1 constants that name a kind or a refusal", r"^\s*(pub )?const (?!K_|HEAD|BOOK_HEAD|WIDTH_RECORD|HALF|SEARCHES)[A-Z_]+: u(8|32) = \d+;")
        at("1 tests of a number that is 0 or a refusal", r"\b(refusal|first|book|two|five|form|content|later) [!=]= 0\b")
        at("3 loops that count by `while`", r"^\s*while (?!let)")
        at("4 order, bounds and conversion by hand", r"^\s*(pub )?fn (larger|smaller|clamped|between|wide|held_to_127|by_prev|power|is_current|is_level|is_distance|less|same|equals?)\(")
        for line, name, params, contract, body in functions(text):
            here = f"{path}:{line}: {name}"
            result = re.match(r"\s*->\s*(\w+)", contract)
            if result and result.group(1) == "u32" and re.search(r"refus|outcome_of|\bPut\b|Dropped|first_two|checks|told", contract, re.I):
                kind = "by the C interface" if 'extern "C"' in text.split("\n")[line - 1] else "elsewhere"
                places[f"1 functions that answer the number of a refusal, {kind}"].append(here)
            names = parameters(params)
            for group, members in GROUPS.items():
                if all(member in names for member in members) and not (members == ("map", "configs") and "ready" in names):
                    places[f"5 functions that take {group}"].append(here)
            for fact in clauses(contract):
                facts[fact].append(here)
            if len(names) > 7:
                places["5 functions of more than seven parameters"].append(here)
            if re.search(r"\b\w+: bool\b", params):
                places["7 functions that a flag switches"].append(here)
        at("6 arrays with a count beside", r"^\s*pub (count|done|len|places): (usize|u32),")
        at("7 matches on which search to run", r"match search\b|search == [0-9]")
    for fact, users in facts.items():
        if len(users) >= 3 and len(fact) > 24:
            places["5 facts in the `requires` of three or more functions"].append(f"{len(users)} x {fact}")
    for path in sorted(glob.glob("crates/*/proofs/**/*.antt", recursive=True)):
        for number, line in enumerate(open(path, encoding="utf-8"), 1):
            if re.match(r"\s*-- src/\w+", line):
                places["8 comments that only name a place of the source"].append(f"{path}:{number}")
    return places


for point, found in sorted(count().items()):
    print(f"{len(found):5}  {point}")
    if "-v" in sys.argv:
        for place in found:
            print("         ", place)
