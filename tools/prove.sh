#!/usr/bin/env bash
# Proves the main program and all it stands on, and says how far it is: a line for each crate as it is proved.
set -euo pipefail
cd "$(dirname "$0")/.."
mapfile -t crates < <(tools/reached.sh level_search)
echo "prove: ${#crates[@]} crates, about a quarter of an hour on two cores from nothing"
mkdir -p target/log
n=0
for crate in "${crates[@]}"; do
    (cd "crates/$crate" && rt check) > "target/log/$crate.say" 2>&1 || { grep -E ' error|^rt: ' "target/log/$crate.say"; echo "prove: $crate is NOT PROVED"; exit 1; }
    n=$((n + 1))
    echo "$n of ${#crates[@]}: $crate proved"
done
(cd crates/level_search && rt run) < examples/blocks.bin > target/prove.txt 2> target/run.log || { cat target/run.log >&2; exit 1; }
echo 'prove: level_search is proved: crates/level_search/out/level_search; "make run" takes it now'
