#!/usr/bin/env bash
# Prints the lines that level_search gives for examples/blocks.bin, each block with a word on what it is, costs as decimals beside their bits, and refusals
# in the words of docs/refusals.txt.
# Usage, at the root of the repository: tools/explain.sh < LINES
set -euo pipefail
about=(
    'A block for which the searches part. Count of nonzero levels; of beam and trellis the cost; each level that changed, INDEX:LEVEL.'
    'The same block with a failed sensor strip: four coefficients are not numbers. No level has changed.'
    'The good block again: what came before has left no trace.'
    'A block of zeros: nothing to code but the count, so the cost is lambda times the price of a zero count.'
    'The block of zeros under a book that can write no symbol: greedy keeps the levels.'
)

# The number whose bits these are; costs are neither negative nor subnormal here.
decimal() {
    awk -v bits="$((16#$1))" 'BEGIN { printf "%.4f", (8388608 + bits % 8388608) * 2 ^ (int(bits / 8388608) - 150) }'
}

# What is wrong where this number is the refusal.
wrong() {
    awk -v number="$1" '$1 == number && NF == 2 { here = 1; next } !here { next } /^mend/ { print words; exit } { sub(/^(what:)? +/, ""); words = words (words ? " " : "") $0 }' docs/refusals.txt
}

last=-1
while IFS= read -r line; do
    number=${line%% *}
    if [ "$number" != "$last" ]; then
        echo
        echo "${about[$number]}"
        last=$number
    fi
    if [[ $line =~ ^(.*\ cost\ )([0-9a-f]{8})(.*)$ ]]; then
        line="${BASH_REMATCH[1]}${BASH_REMATCH[2]} ($(decimal "${BASH_REMATCH[2]}"))${BASH_REMATCH[3]}"
    elif [[ $line =~ refused\ ([0-9]+)$ ]]; then
        line="$line: $(wrong "${BASH_REMATCH[1]}")"
    fi
    echo "    $line"
done
