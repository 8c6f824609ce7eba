#!/usr/bin/env python3
"""Writes crates/context_sheet/stdin and stdout: the context sheet's example, its limits, and a sample of its domain.

The answers are worked out here from the standard's tables, given as runs, and share no code with the crates.
Run it from the repository's root."""

import random

NUM_NONZERO = [None] + [0] + [31] + [62] * 2 + [93] * 4 + [123] * 4 + [152] * 8 + [180] * 12 + [206] * 31
FREQ = [None] + list(range(16)) + [x for v in range(15, 23) for x in ((v,) if v == 15 else (v, v))]
FREQ += [v for v in range(23, 31) for _ in range(4)]
assert len(NUM_NONZERO) == 64 and len(FREQ) == 64


def context(c, remaining, k, prev):
    """The context, or -1 outside module 2's domain."""
    if c not in [2**i for i in range(11)] or prev not in (0, 1):
        return -1
    if not c <= k < 64 * c or not 1 <= remaining <= 64 * c - k:
        return -1
    return (NUM_NONZERO[-(-remaining // c)] + FREQ[k // c]) * 2 + prev


def column(text):
    """The number of a column, or None where it is of another form."""
    digits = text.lstrip(" ")
    if not digits or not digits.isascii() or not digits.isdigit() or (digits[0] == "0" and digits != "0"):
        return None
    return int(digits)


def answer(line):
    columns = [column(line[i : i + 6]) for i in range(0, 24, 6)] if len(line) == 24 else [None]
    if None in columns:
        return "    -2"
    return line + "%6d" % context(*columns)


def cases():
    yield from ["     1    33    31     1", "     2     3     5     0", "     1    34    31     0"]
    for c in [2**i for i in range(11)]:
        for k in (c - 1, c, 2 * c - 1, 2 * c, 32 * c, 63 * c, 64 * c - 1, 64 * c):
            for remaining in (0, 1, c, c + 1, 64 * c - k, 64 * c - k + 1):
                for prev in (0, 1, 2):
                    yield "%6d%6d%6d%6d" % (c, max(remaining, 0), k, prev)
    yield from ["%6d%6d%6d%6d" % row for row in [(3, 1, 3, 0), (0, 1, 0, 0), (2048, 1, 2048, 0), (999999,) * 4, (1, 999999, 31, 1)]]
    yield from ["", " ", " " * 24, "0" * 24, "     1     1     1     0 ", "     1     1     1    0", " 1     1     1     1     ",
                "     1     1     1    00", "    01     1     1     0", "    +1     1     1     0", "    -1     1     1     0",
                "     1           1     0", "     1     1     1     \t", "     1     1     1     0\r", "\t    1     1     1     0",
                "     1    1 0    1     0", "1     1     1     0     ", "     1     1     1     a", "     1     1     1     /", "     1     1     1     :"]
    yield "x" * 70000
    yield "     1     1     1     0"
    rand = random.Random(1)
    for _ in range(600):
        c = 2 ** rand.randrange(11)
        k = rand.randrange(c, 64 * c)
        yield "%6d%6d%6d%6d" % (c, rand.randint(1, 64 * c - k), k, rand.randrange(2))
    yield ""
    yield "     1     1    63     1"


lines = list(cases())
with open("crates/context_sheet/stdin", "w", newline="") as f:
    f.write("\n".join(lines))  # the last line lacks its newline
with open("crates/context_sheet/stdout", "w", newline="") as f:
    f.write("".join(answer(line) + "\n" for line in lines))
