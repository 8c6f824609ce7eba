#!/usr/bin/env bash
# Shows the sample. The proved program runs where there is one that is younger than its sources; else the same sources are built without a proof and held to
# the Rust's answers, which takes seconds.
set -euo pipefail
cd "$(dirname "$0")/.."
program=crates/level_search/out/level_search
if [ -x "$program" ] && [ -z "$(find crates crates.txt -name out -prune -o -newer "$program" -type f -print -quit)" ]; then
    echo 'The proved program:'
    "$program" < examples/blocks.bin | tools/explain.sh
    exit
fi
(cd crates/level_search && rt try) < examples/blocks.bin > target/try.txt 2> target/run.log || { cat target/run.log >&2; exit 1; }
diff target/try.txt examples/blocks.txt >&2 || { echo 'run: these lines of examples/blocks.txt differ' >&2; exit 1; }
echo 'Built WITHOUT a proof, since nothing has been proved yet ("make prove" does it, in minutes). It wrote:'
tools/explain.sh < target/try.txt
