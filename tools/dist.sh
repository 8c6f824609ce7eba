#!/usr/bin/env bash
# Packs the library as target/dist/rdoq-VERSION-x86_64-linux.tar.gz: headers, static and shared library, pkg-config and CMake files, the Rust crate,
# the C quick start, texts, licences, and PROOF.txt. Two builds of one commit are the same to the bit (tools/dist_twice.sh).
# Usage: tools/dist.sh              packs
#        tools/dist.sh PREFIX       installs what belongs below a prefix there: include, lib, share
set -euo pipefail
cd "$(dirname "$0")/.."
number() { awk -v name="RDOQ_VERSION_$1" '$2 == name { print $3 }' include/rdoq.h; }
series=$(number MAJOR).$(number MINOR)
version=$series.$(number PATCH)
name=rdoq-$version-x86_64-linux
# Staged outside the checkout: the staged library has links, and rt ci takes none below the repository.
room=$(mktemp -d)
trap 'rm -rf "$room"' EXIT
stage=$room/$name
packed=target/dist/$name.tar.gz
archive=target/staticlib/librdoq_c.a

shared() {
    gcc -shared -nostartfiles -Wl,-z,defs -Wl,-z,text -Wl,--build-id=none -Wl,-soname,"librdoq_c.so.$series" -o "$1" \
        -Wl,--whole-archive "$archive" -Wl,--no-whole-archive -lc
    local exported
    exported=$(nm -D --defined-only "$1" | awk '{ print $3 }' | sort)
    [ "$exported" = "$(nm -g --defined-only "$archive" | awk 'NF == 3 { print $3 }' | sort)" ] || { echo 'dist: the shared library does not export what the archive does' >&2; exit 1; }
}

# A file with the version put in.
filled() { sed -e "s/@VERSION@/$version/g" -e "s/@SERIES@/$series/g" "packaging/$1" > "$2/$1"; }

stage_files() {
    mkdir -p "$stage"/{include,lib/pkgconfig,lib/cmake/rdoq,bindings/rust,examples}
    cp include/rdoq.h include/rdoq_easy.h "$stage/include/"
    cp "$archive" "$stage/lib/"
    shared "$stage/lib/librdoq_c.so.$version"
    ln -s "librdoq_c.so.$version" "$stage/lib/librdoq_c.so.$series"
    ln -s "librdoq_c.so.$series" "$stage/lib/librdoq_c.so"
    filled rdoq.pc "$stage/lib/pkgconfig"
    filled rdoqConfig.cmake "$stage/lib/cmake/rdoq"
    filled rdoqConfigVersion.cmake "$stage/lib/cmake/rdoq"
    filled CMakeLists.txt "$stage/examples"
    cp bindings/c/quick_start.c "$stage/examples/"
    # what the repository holds of these, and nothing that was built beside it
    git ls-files -z bindings/rust docs README.md LICENSE LICENSE-APACHE LICENSE-BSD NOTICE | xargs -0 cp --parents -t "$stage"
}

# What the check said of each crate that the library is made of, and what is packed.
proof() {
    local families crate said changes=''
    [ -z "$(git status --porcelain)" ] || changes=', with changes that no commit has'
    mapfile -t families < <(grep -l 'no_mangle' crates/*/src/*.rt | cut -d/ -f2 | sort -u)
    echo "rdoq $version"
    echo "commit $(git rev-parse HEAD)$changes"
    echo "kit and logic: $(rt version)"
    echo "shared library linked by: $(gcc --version | head -n 1)"
    echo
    echo 'Each crate that the library is made of, with the last line of its check. A crate that rests on an axiom would say axioms=N.'
    for crate in $(tools/reached.sh "${families[@]}"); do
        [ -e "target/log/$crate.say" ] || (cd "crates/$crate" && rt check) > "target/log/$crate.say" 2>&1
        said=$(grep '^logic=' "target/log/$crate.say" | tail -n 1 | sed 's/ target=[^ ]*//')
        [[ $said == logic=proved* ]] || { echo "dist: $crate: no check says that it is proved" >&2; exit 1; }
        printf '%-16s %s\n' "$crate" "$said"
        [[ $said != *axioms=* ]] || echo "$crate" >> "$stage.axioms"
    done
    echo
    echo "axioms: $([ -e "$stage.axioms" ] && tr '\n' ' ' < "$stage.axioms" || echo none)"
    echo
    echo 'sha256 of what is packed (sha256sum -c takes these lines):'
    (cd "$stage" && find . -type f ! -name PROOF.txt | LC_ALL=C sort | xargs sha256sum)
}

pack() {
    local time
    time=$(git log -1 --format=%ct)
    find "$stage" -type d -exec chmod 755 {} +
    find "$stage" -type f -exec chmod 644 {} +
    tar --sort=name --mtime="@$time" --owner=0 --group=0 --numeric-owner --format=gnu -C "$room" -cf - "$name" | gzip -n -9 > "$packed"
    echo "dist: $packed ($(sha256sum < "$packed" | cut -c1-16).., $(($(wc -c < "$packed") / 1024)) KB)"
}

install_into() {
    mkdir -p "$1/share/doc/rdoq"
    cp -R "$stage/include" "$stage/lib" "$1/"
    cp "$stage"/{README.md,LICENSE,LICENSE-APACHE,LICENSE-BSD,NOTICE,PROOF.txt} "$1/share/doc/rdoq/"
    echo "install: rdoq $version below $1"
}

tools/archive.sh
stage_files
rm -f "$stage.axioms"
mkdir -p target/dist target/log
proof > "$room/PROOF.txt"
mv "$room/PROOF.txt" "$stage/PROOF.txt"
if [ $# -eq 1 ]; then install_into "$1"; else pack; fi
