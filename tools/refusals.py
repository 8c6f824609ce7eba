#!/usr/bin/env python3
"""The refusals, from docs/refusals.txt, which says how it is read.

    tools/refusals.py          writes the parts of other files that list refusals
    tools/refusals.py --check  says whether they are as they would be written; exit status 1 where not

A part stands between two lines, the first of which has `refusals:` and the name of the part, the second `refusals: end`."""
import re
import sys
import textwrap

SOURCE = "docs/refusals.txt"
C, RUST = "mend in C", "mend in Rust"


class Refusal:
    def __init__(self, number, name):
        self.number, self.name, self.fields = int(number), name, {}

    def text(self, language):
        return f"{self.fields['what']}: {self.fields.get(language, self.fields['mend'])}"

    def in_c(self):
        return "RDOQ_REFUSAL_" + re.sub(r"(?<!^)(?=[A-Z])", "_", self.name).upper()

    def reserved(self):
        return "reserved" in self.fields


def read():
    """The refusals as they stand, and the order of checks as pairs: a call, and what it asks."""
    refusals, order, field = [], None, None
    for line in open(SOURCE, encoding="utf-8"):
        line = line.rstrip("\n")
        if not line or line.startswith("#"):
            continue
        if line == "order":
            order = []
        elif order is not None:
            order.append(line.split(" | "))
        elif re.fullmatch(r"\d+ [A-Za-z]+", line):
            refusals.append(Refusal(*line.split()))
        elif line.startswith(" "):
            refusals[-1].fields[field] += " " + line.strip()
        else:
            field, value = line.split(": ", 1)
            refusals[-1].fields[field] = value
    numbers = [r.number for r in refusals]
    assert sorted(numbers) == list(range(1, len(numbers) + 1)), f"{SOURCE}: a number is missing or there twice"
    return refusals, order


def wrapped(text, first, rest, width=120):
    return textwrap.fill(text, width, initial_indent=first, subsequent_indent=rest, break_on_hyphens=False).splitlines()


def sentence(text):
    return text[0].upper() + text[1:] + "."


def named(call):
    """Whether these are names of calls, and not words on them."""
    return "_" in call


def header(refusals, order):
    """The enum, by number, with the order of checks over it."""
    yield "/*"
    yield " * Refusals. The first check that fails is answered; what each call asks, in order:"
    for call, asked in order:
        names = ", ".join(name if name.startswith("rdoq_") else "rdoq_" + name for name in call.split(", ")) if named(call) else call
        yield from wrapped(asked, f" *   {names:<50}", " *   " + " " * 50)
    yield " */"
    yield "typedef enum rdoq_refusal {"
    yield "    RDOQ_ANSWERED = 0,"
    by_number = sorted(refusals, key=lambda r: r.number)
    for r in by_number:
        kept = " Given by no call yet." if r.reserved() else ""
        yield from wrapped(sentence(r.fields["what"]) + kept, "    /* ", "       ")
        lines = wrapped(sentence(r.fields.get(C, r.fields["mend"])), "       ", "       ")
        yield from lines[:-1]
        yield lines[-1] + " */"
        yield f"    {r.in_c()} = {r.number}" + ("," if r is not by_number[-1] else "")
    yield "} rdoq_refusal;"


def texts(refusals, _):
    """The texts for C, as a switch."""
    yield "RDOQ_INLINE const char *rdoq_refusal_text(uint32_t number) {"
    yield "    switch (number) {"
    yield '    case RDOQ_ANSWERED: return "answered: nothing to mend";'
    for r in sorted(refusals, key=lambda r: r.number):
        words = r.text(C).replace('"', '\\"')
        yield f"    case {r.in_c()}:"
        lines = textwrap.wrap(words, 104, break_on_hyphens=False, drop_whitespace=False)
        for i, line in enumerate(lines):
            start = "        return " if i == 0 else "               "
            yield f'{start}"{line}"' + (";" if i == len(lines) - 1 else "")
    yield '    default: return "no refusal has this number: use header and archive of one version";'
    yield "    }"
    yield "}"


def table(refusals, _):
    """The README's table, in the order of checks."""
    yield "| Number | What is wrong | What to mend |"
    yield "|---|---|---|"
    for r in refusals:
        if not r.reserved():
            yield f"| {r.number} | {r.fields['what']} | {r.fields['mend']} |"


def orders(_, order):
    """What each call asks, as a table."""
    yield "| Call | Order |"
    yield "|---|---|"
    for call, asked in order:
        names = ", ".join(f"`{name}`" for name in call.split(", ")) if named(call) else call
        yield f"| {names} | {asked} |"


def known_of(refusals):
    return sorted((r for r in refusals if not r.reserved()), key=lambda r: r.number)


def rust(refusals, _):
    """The enum, the list of its variants, and their texts."""
    known = known_of(refusals)
    yield "#[derive(Clone, Copy, Debug, PartialEq, Eq, Hash)]"
    yield "#[non_exhaustive]"
    yield "#[repr(u8)]"
    yield "pub enum Refusal {"
    for r in known:
        yield from wrapped(sentence(r.fields["what"]), "    /// ", "    /// ")
        yield f"    {r.name} = {r.number},"
    yield "    /// The library returned a code that this crate does not know: the two are not of one version. What the call wrote is not"
    yield "    /// known either. No check has this number, so [`from_number`](Refusal::from_number) does not answer it."
    yield "    Unknown = 255,"
    yield "}"
    yield ""
    yield "const ALL: &[Refusal] = &["
    yield from (f"    Refusal::{r.name}," for r in known)
    yield "];"
    yield ""
    yield "/// What is wrong, and what to mend."
    yield "fn text(refusal: Refusal) -> &'static str {"
    yield "    match refusal {"
    for r in known:
        yield f'        Refusal::{r.name} => "{r.text(RUST)}",'
    yield "        Refusal::Unknown => {"
    yield '            "the library returned a code that this crate does not know: take librdoq_c.a and the crate from one version"'
    yield "        }"
    yield "    }"
    yield "}"


def variants(refusals, _):
    """The enum of the library."""
    yield "#[derive(Clone, Copy, Debug, PartialEq, Eq, Hash)]"
    yield "pub enum Refusal {"
    for r in known_of(refusals):
        yield from wrapped(sentence(r.fields["what"]), "    /// ", "    /// ", 100)
        yield f"    {r.name},"
    yield "}"


def arms(refusals, _):
    """The number of each refusal, as code."""
    yield "impl Refusal {"
    yield "    pub fn number(self) -> u32"
    yield "        ensures { result ≡ number_of self }"
    yield "    {"
    yield "        match self {"
    for r in known_of(refusals):
        yield f"            Refusal::{r.name} => {r.number},"
    yield "        }"
    yield "    }"
    yield "}"


def mends(refusals, _):
    """What to mend, as `Display` writes it."""
    yield "impl fmt::Display for Refusal {"
    yield "    fn fmt<W: fmt::Write>(&self, f: &mut fmt::Formatter<W>) -> fmt::Result {"
    yield "        f.write_str(match self {"
    for r in known_of(refusals):
        line = f'            Refusal::{r.name} => "{r.text(RUST)}",'
        if len(line) <= 100:
            yield line
        else:
            yield f"            Refusal::{r.name} => {{"
            yield f'                "{r.text(RUST)}"'
            yield "            }"
    yield "        })"
    yield "    }"
    yield "}"


def numbers(refusals, _):
    """The number of each refusal, as a definition."""
    known = known_of(refusals)
    yield f"use Rattle.refusals.specs.declared.Refusal.TheVariants.{{{', '.join(r.name for r in known)}}}"
    yield ""
    yield "-- the number of a refusal, which is what a caller in C gets"
    yield "abbrev pub number_of : Refusal → ℕ"
    yield from (f"number_of {r.name} = {r.number}" for r in known)
    yield ""


PARTS = [
    ("include/rdoq.h", "header", header),
    ("include/rdoq_easy.h", "texts", texts),
    ("README.md", "table", table),
    ("docs/SCOPE.md", "order", orders),
    ("bindings/rust/src/refusal.rs", "rust", rust),
    ("crates/refusals/src/lib.rt", "variants", variants),
    ("crates/refusals/src/lib.rt", "arms", arms),
    ("crates/refusals/src/lib.rt", "mends", mends),
    ("crates/refusals/specs/Numbers.antt", "numbers", numbers),
]


def main():
    check = sys.argv[1:] == ["--check"]
    if sys.argv[1:] and not check:
        sys.exit(__doc__)
    source = read()
    differ = []
    for path, name, part in PARTS:
        old = open(path, encoding="utf-8").read()
        found = re.search(rf"(?ms)^[^\n]*refusals: {name}\b[^\n]*\n(.*?)^[^\n]*refusals: end\b", old)
        if not found:
            sys.exit(f"{path}: no part `refusals: {name}`")
        new = old[: found.start(1)] + "\n".join(part(*source)) + "\n" + old[found.end(1) :]
        if new != old:
            differ.append(path)
            if not check:
                open(path, "w", encoding="utf-8").write(new)
    if check and differ:
        sys.exit(f"not what tools/refusals.py writes: {', '.join(differ)}")


main()
