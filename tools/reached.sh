#!/usr/bin/env bash
# Prints the named crates and all that they stand on, by crates.txt, in its order.
# Usage, at the root of the repository: tools/reached.sh CRATE...
set -euo pipefail
awk -F': *' -v names="$*" '
    function reach(name, list, n, i) { if (name in seen || !(name in deps)) return; seen[name] = 1; n = split(deps[name], list, " "); for (i = 1; i <= n; i++) reach(list[i]) }
    !/^#/ && NF { sub(/ .*/, "", $1); deps[$1] = $2; order[++count] = $1 }
    END { n = split(names, named, " "); for (i = 1; i <= n; i++) reach(named[i]); for (i = 1; i <= count; i++) if (order[i] in seen) print order[i] }' crates.txt
