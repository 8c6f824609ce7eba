#!/usr/bin/env bash
# Prints docs/frequency-contexts.md: a row for each index of CoeffFreqContext from 1 on, read off the table in crates/ac_context/specs/Contexts.antt.
# Usage, at the root of the repository: tools/frequency_sheet.sh > docs/frequency-contexts.md
set -euo pipefail

cat <<'HEAD'
# Frequency contexts

The table CoeffFreqContext of ISO/IEC 18181-1, to be typed off. The index i is the scan position over the number of covered blocks, rounded down; 0 never occurs.
By rule the context is i − 1 below 16, 7 + i/2 from 16 to 31 and 15 + i/4 from 32 on, each division rounded down. That the rule gives the table is proved: `frequency-by-rule` in `crates/ac_context/proofs/Frequency.antt`.

`tools/frequency_sheet.sh` writes this page from the table in `crates/ac_context/specs/Contexts.antt`, and `make test` holds the page to it.

| i | Context | By |
|---|---|---|
HEAD
awk '/^coeff_freq_context = / {
    gsub(/[^0-9]+/, " ")
    n = split($0, entry)
    if (n != 64) { print "coeff_freq_context has " n " entries, not 64" > "/dev/stderr"; exit 1 }
    for (i = 1; i < 64; i++) print "| " i " | " entry[i + 1] " | " (i < 16 ? "i − 1" : i < 32 ? "7 + i/2" : "15 + i/4") " |"
    found = 1
}
END { if (!found) exit 1 }' crates/ac_context/specs/Contexts.antt
