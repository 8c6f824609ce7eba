#!/usr/bin/env bash
# Holds the code in docs/USING.md to the files that are compiled, in C and in Rust to those that `make bindings` runs, in Rattle to what
# the program calls; and the README's output to what `make run` prints.
# Usage, at the root of the repository: tools/readme_snippets.sh
set -euo pipefail

# The first block of a language in a page, without its fences.
block() {
    awk -v open="\`\`\`$2" '!done && $0 == open { inside = 1; next } inside && /^```/ { inside = 0; done = 1 } inside' "$1"
}

same() {
    if ! diff <(block "$1" "$2") "$3" > /dev/null; then
        echo "$1: the first block of $2 is not $3" >&2
        diff <(block "$1" "$2") "$3" >&2 || true
        return 1
    fi
}

# The block is not empty and stands in the text, line by line.
within() {
    local part
    part=$(block "$1" "$2")
    if [[ -z $part || $3 != *"$part"* ]]; then
        echo "$1: the first block of $2 is not in $4" >&2
        return 1
    fi
}

same docs/USING.md rust bindings/rust/examples/quick_start.rs
same docs/USING.md c bindings/c/quick_start.c
within docs/USING.md rattle "$(< crates/block_search/src/lib.rt)" crates/block_search/src/lib.rt
within README.md text "$(tools/explain.sh < examples/blocks.txt)" 'what make run prints'
