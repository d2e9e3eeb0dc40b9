#!/usr/bin/env bash
# Compares the search, proved and compiled, with the source's own. Needs rt and rustc. All it makes goes to target/slices/.
# An argument is the number of slices.
set -eu
here=$(cd "$(dirname "$0")" && pwd -P)
root=$(cd "$here/../.." && pwd -P)
out=$root/target/slices
from=$(bash "$root/tools/oracle/source.sh")

# The Rattle side: a repository of its own with copies of the crates and the glue, proved and written as an archive.
# Its files stand outside of this checkout, where rt would take them for its own.
repo=${TMPDIR:-/tmp}/tromvask-slices
rm -rf "$repo/crates"
mkdir -p "$out" "$repo/crates/slices/src"
for crate in $(bash "$root/tools/library/below.sh" lms scale search); do
    mkdir -p "$repo/crates/$crate"
    for part in src specs proofs; do [ ! -d "$root/crates/$crate/$part" ] || cp -r "$root/crates/$crate/$part" "$repo/crates/$crate/"; done
    grep "^$crate:" "$root/crates.txt"
done >"$repo/crates.txt"
echo 'slices staticlib: lms scale search' >>"$repo/crates.txt"
cp "$here/slices.rt.txt" "$repo/crates/slices/src/lib.rt"
(cd "$repo/crates/slices" && rt lib) >"$out/rt.log" 2>&1 || { cat "$out/rt.log" >&2; exit 1; }

# The Rust side: the unchanged source, with a module after it that lends out its private search.
cat "$from" "$here/appended.rs" >"$out/qoaudio.rs"
rustc --edition 2021 -C opt-level=3 --crate-type rlib --crate-name qoaudio "$out/qoaudio.rs" -o "$out/libqoaudio.rlib"
rustc --edition 2021 -C opt-level=3 --extern qoaudio="$out/libqoaudio.rlib" \
    -C link-arg="$repo/crates/slices/out/libslices.a" "$here/compare.rs" -o "$out/compare"
"$out/compare" "$@"
