#!/usr/bin/env bash
# The C library: each crate that exports functions is proved and built as an archive of its own, and all are merged into
# target/staticlib/librdoq_c.a. Nothing may be exported twice, what the header declares is what is exported, and what it says is needed is all that is.
# What rt said of each is kept in target/log/CRATE.say.
set -euo pipefail
cd "$(dirname "$0")/.."
out=target/staticlib
library=$out/librdoq_c.a
# A library younger than all it is made of stands as it is.
if [ -e "$library" ] && [ -z "$(find crates include/rdoq.h tools/archive.sh "$(command -v rt)" -name out -prune -o -newer "$library" -type f -print -quit)" ]; then
    exit 0
fi
mkdir -p "$out" target/log
mapfile -t families < <(grep -l 'no_mangle' crates/*/src/*.rt | cut -d/ -f2 | sort -u)
merge=$out/merge
rm -rf "$merge"
mkdir -p "$merge"
for family in "${families[@]}"; do
    (cd "crates/$family" && rt lib) > "target/log/$family.say" 2>&1 || { cat "target/log/$family.say" >&2; exit 1; }
    mkdir "$merge/$family"
    archive=$PWD/crates/$family/out/lib$family.a
    (cd "$merge/$family" && ar x "$archive")
    for object in "$merge/$family"/*; do
        mv "$object" "$merge/$family-$(basename "$object")"
    done
    rmdir "$merge/$family"
done
rm -f "$library"
ar rcsD "$library" "$merge"/*
rm -rf "$merge"
exported=$(nm -g --defined-only "$library" | awk 'NF == 3 { print $3 }' | sort)
twice=$(uniq -d <<< "$exported")
[ -z "$twice" ] || { echo "archive: exported twice: $twice" >&2; exit 1; }
needed=$(nm -u "$library" | awk 'NF == 2 { print $2 }' | sort -u | tr '\n' ' ')
[ "$needed" = 'memcpy memset ' ] || { echo "archive: include/rdoq.h says that the library needs memset and memcpy; it needs $needed" >&2; exit 1; }
declared=$(grep -oE '\brdoq_[a-z0-9_]+\(' include/rdoq.h | tr -d '(' | sort -u)
[ "$exported" = "$declared" ] || { echo 'archive: include/rdoq.h declares and the library exports (<, >):' >&2; diff <(echo "$declared") <(echo "$exported") >&2; exit 1; }
