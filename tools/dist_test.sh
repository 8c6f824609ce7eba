#!/usr/bin/env bash
# Tries the packed library as a stranger would: unpacked outside the repository, with nothing of it in reach. The C quick start by pkg-config, there and
# installed below a prefix, and by CMake, each with the shared library and with the archive; the Rust quick start in a crate of its own. What has no
# tools at hand is left out, and said so.
# Usage: tools/dist_test.sh, after make dist
set -euo pipefail
cd "$(dirname "$0")/.."
packed=$(echo "$PWD"/target/dist/rdoq-*-x86_64-linux.tar.gz)
room=$(mktemp -d)
trap 'rm -rf "$room"' EXIT
tools/dist.sh "$room/installed" > /dev/null
cd "$room"
mkdir unpacked
tar -xzf "$packed" -C unpacked --strip-components=1

# Fails where a program does not say what the quick start has to say.
says() {
    local said
    said=$("${@:2}") || { echo "dist_test: $1 fails: $said" >&2; exit 1; }
    [[ $said == '9 nonzero levels, cost '* ]] || { echo "dist_test: $1 says $said" >&2; exit 1; }
    echo "dist_test: $1: $said"
}

sums() { grep -E '^[0-9a-f]{64}  ' unpacked/PROOF.txt; }
sums > sums.txt
(cd unpacked && sha256sum -c --quiet ../sums.txt)
[ "$(find unpacked -type f | wc -l)" -eq $(($(wc -l < sums.txt) + 1)) ]
echo 'dist_test: PROOF.txt has every file, with its sha256'

if command -v pkg-config > /dev/null; then
    for base in unpacked installed; do
        export PKG_CONFIG_PATH="$room/$base/lib/pkgconfig"
        read -ra flags < <(pkg-config --cflags rdoq)
        read -ra libs < <(pkg-config --libs rdoq)
        compile=(gcc -std=c99 -Wall -Wextra -Werror unpacked/examples/quick_start.c "${flags[@]}")
        "${compile[@]}" -o by_shared "${libs[@]}"
        "${compile[@]}" -o by_archive "$(pkg-config --variable=archive rdoq)"
        says "pkg-config, $base, shared library" env LD_LIBRARY_PATH="$room/$base/lib" ./by_shared
        says "pkg-config, $base, archive" ./by_archive
    done
else echo 'dist_test: no pkg-config here: left out'; fi

# it may be moved, and its path may have blanks
dir="$room/moved to a place"
mv unpacked "$dir"
if command -v cmake > /dev/null; then
    (cmake -S "$dir/examples" -B by_cmake -DCMAKE_PREFIX_PATH="$dir" && cmake --build by_cmake) > cmake.log 2>&1 || { cat cmake.log >&2; exit 1; }
    says 'CMake, shared library' by_cmake/quick_start
    says 'CMake, archive' by_cmake/quick_start_static
else echo 'dist_test: no cmake here: left out'; fi

if command -v cargo > /dev/null; then
    mkdir -p by_cargo/src
    cp "$dir/bindings/rust/examples/quick_start.rs" by_cargo/src/main.rs
    printf '[package]\nname = "by_cargo"\nversion = "0.0.0"\nedition = "2021"\n[dependencies]\nrdoq = { path = "%s" }\n' "$dir/bindings/rust" > by_cargo/Cargo.toml
    says 'Rust' cargo run --quiet --offline --manifest-path by_cargo/Cargo.toml
else echo 'dist_test: no cargo here: left out'; fi
