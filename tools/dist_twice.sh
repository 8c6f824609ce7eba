#!/usr/bin/env bash
# Builds what HEAD packs twice, in clones in two folders, and compares the two to the bit. What is proved already is not proved again: rt keeps it, and the
# logs are taken over from this folder, so make dist comes first; archives and shared library are built anew in each.
# Usage: tools/dist_twice.sh
set -euo pipefail
cd "$(dirname "$0")/.."
room=$(mktemp -d)
trap 'rm -rf "$room"' EXIT
for clone in one another-with-a-longer-name; do
    git clone --quiet --no-hardlinks . "$room/$clone"
    mkdir "$room/$clone/target"
    cp -a target/log "$room/$clone/target/"
    (cd "$room/$clone" && umask "$([ "$clone" = one ] && echo 022 || echo 077)" && tools/dist.sh) | tail -n 1
done
cmp "$room"/*/target/dist/rdoq-*-x86_64-linux.tar.gz
echo "dist_twice: two builds of $(git rev-parse --short HEAD) are the same to the bit"
