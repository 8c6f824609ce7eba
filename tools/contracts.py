#!/usr/bin/env python3
"""Holds docs/CONTRACTS.md to the tree: every call that include/rdoq.h declares has a row, and every edit that is named is there.

    tools/contracts.py --check
"""
import pathlib
import re
import sys

ROOT = pathlib.Path(__file__).resolve().parent.parent


def main():
    if sys.argv[1:] != ["--check"]:
        sys.exit("usage: tools/contracts.py --check")
    page = (ROOT / "docs/CONTRACTS.md").read_text()
    words = set(re.findall(r"`([^`\n]+)`", page))
    header = re.sub(r"/\*.*?\*/", "", (ROOT / "include/rdoq.h").read_text(), flags=re.S)
    faults = [f"{call} has no row" for call in re.findall(r"\b(rdoq_\w+)\s*\(", header) if call not in words]
    crates = {path.name for path in (ROOT / "crates").iterdir()}
    for word in sorted(words):
        crate, _, edit = word.partition("/")
        if crate in crates and re.fullmatch(r"[a-z0-9_]+", edit) and edit not in ("specs", "src", "proofs"):
            if not (ROOT / "crates" / crate / "must-fail" / f"{edit}.edit").is_file():
                faults.append(f"{word} is no edit")
    for fault in faults:
        print(f"docs/CONTRACTS.md: {fault}", file=sys.stderr)
    return bool(faults)


if __name__ == "__main__":
    sys.exit(main())
