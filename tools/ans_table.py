#!/usr/bin/env python3
"""The table of ANS prices: 4,097 bit patterns of f32, entry f being the price of frequency f of 4,096 (0 costs 15.0, any other 12 - log2 by dirty_log2f).

    tools/ans_table.py          writes the table for the code and, in parts, for the proof
    tools/ans_table.py --check  says whether both files are as they would be written; exit status 1 where not

The routine is worked out here once more, from its definition. Each step is one operation of f32: an operation of f64 on two f32, rounded to f32, is that operation rounded once."""
import os
import struct
import sys

ENTRIES, PARTS = 4097, 8
CODE = "crates/ans/src/table.rt"
PROOF = "crates/ans_prices/proofs/Prices.antt"


def bits(x):
    return struct.unpack("<I", struct.pack("<f", x))[0]


def real(b):
    return struct.unpack("<f", struct.pack("<I", b))[0]


def f32(x):
    return real(bits(x))


def dirty_log2f(d):
    i = (bits(d) + (0x3F800000 - 0x3F3504F3)) % 2**32
    n = float(i // 2**23 - 127)
    a = real((i % 2**23 + 0x3F3504F3) % 2**32)
    x = f32(f32(a - 1.0) / f32(a + 1.0))
    y = f32(x * x)
    p = f32(f32(real(0x3ED30BB1) * y) + real(0x3F13BB63))
    q = f32(f32(p * y) + real(0x3F76384F))
    return f32(f32(f32(y * x) * q) + f32(f32(x * real(0x4038AA3B)) + n))


def price(f):
    return bits(15.0 if f == 0 else f32(12.0 - dirty_log2f(float(f))))


def code(table):
    # as many in a line of 100 columns as there is room for: rt fmt's layout
    rows = ["   "]
    for b in table:
        if len(rows[-1]) + 2 + len(str(b)) > 100:
            rows.append("   ")
        rows[-1] += f" {b},"
    lines = "".join(row + "\n" for row in rows)
    return (
        "// The prices of ANS frequencies, as bit patterns. tools/ans_table.py writes this file.\n"
        "ghost use Rattle.std.specs.Prelude.{◌≡◌};\n"
        "ghost use Rattle.ans_prices.specs.Table.{PriceTable};\n\n"
        f"const PRICES: [u32; {ENTRIES}] = [\n{lines}];\n\n"
        "// The table. It is laid down at each use, so that nothing else mentions it: call once, and lend it.\n"
        f"pub fn price_table() -> [u32; {ENTRIES}]\n"
        "    ensures { PriceTable result }\n"
        "{\n    PRICES\n}\n"
    )


def proof(table):
    step = (ENTRIES - 1) // PARTS
    cuts = [0] + [1 + step * (i + 1) for i in range(PARTS)]
    names = [f"part{i}" for i in range(PARTS)]
    out = (
        "-- The table of ANS prices, in parts: a test over the whole in one declaration would pass antt's step limit. tools/ans_table.py writes this file.\n"
        "use Prim.Native.Nat.{ℕ}\nuse mathlib.Core.List.{List, [], ◌∷◌, ◌++◌}\n\n"
    )
    for i, name in enumerate(names):
        part = table[cuts[i] : cuts[i + 1]]
        rows = "\n    ".join(" ".join(f"{b} ∷" for b in part[j : j + 16]) for j in range(0, len(part), 16))
        out += f"unfoldable pub {name} : List ℕ\n{name} =\n    {rows} []\n\n"
    out += f"unfoldable pub prices : List ℕ\nunfolding {' '.join(names)}\nprices = {' ++ '.join(names)}\n"
    return out


def main():
    os.chdir(os.path.join(os.path.dirname(os.path.abspath(__file__)), ".."))
    table = [price(f) for f in range(ENTRIES)]
    due = {CODE: code(table), PROOF: proof(table)}
    if sys.argv[1:] == ["--check"]:
        wrong = [path for path, text in due.items() if open(path, encoding="utf-8").read() != text]
        for path in wrong:
            print(f"ans_table: {path} is not as tools/ans_table.py writes it", file=sys.stderr)
        if not wrong:
            print(f"ans_table: {ENTRIES} entries, code and proof are as written")
        sys.exit(1 if wrong else 0)
    if sys.argv[1:]:
        sys.exit("usage: tools/ans_table.py [--check]")
    for path, text in due.items():
        with open(path, "w", encoding="utf-8") as out:
            out.write(text)
    print(f"ans_table: {ENTRIES} entries written to {CODE} and {PROOF}")


if __name__ == "__main__":
    main()
