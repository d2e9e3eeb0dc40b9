#!/usr/bin/env bash
# Compares the number crates (lms, scale, trial), proved and compiled, with the source's own private functions.
# Needs rt and rustc. All it makes goes to target/leaves/.
set -eu
here=$(cd "$(dirname "$0")" && pwd -P)
root=$(cd "$here/../.." && pwd -P)
out=$root/target/leaves
from=$(bash "$root/tools/oracle/source.sh")

# The Rattle side: a repository of its own with copies of the crates and the glue, proved and written as an archive.
# Its files stand outside of this checkout, where rt would take them for its own.
repo=${TMPDIR:-/tmp}/tromvask-leaves
rm -rf "$repo/crates"
mkdir -p "$out" "$repo/crates/leaves/src"
for crate in $(bash "$root/tools/library/below.sh" lms scale trial); do
    mkdir -p "$repo/crates/$crate"
    for part in src specs proofs; do [ ! -d "$root/crates/$crate/$part" ] || cp -r "$root/crates/$crate/$part" "$repo/crates/$crate/"; done
    grep "^$crate:" "$root/crates.txt"
done >"$repo/crates.txt"
echo 'leaves staticlib: lms scale trial' >>"$repo/crates.txt"
cp "$here/leaves.rt.txt" "$repo/crates/leaves/src/lib.rt"
(cd "$repo/crates/leaves" && rt lib) >"$out/rt.log" 2>&1 || { cat "$out/rt.log" >&2; exit 1; }

# The Rust side: the unchanged source, with a module after it that lends out its private functions.
cat "$from" "$here/appended.rs" >"$out/qoaudio.rs"
rustc --edition 2021 -C opt-level=3 --crate-type rlib --crate-name qoaudio "$out/qoaudio.rs" -o "$out/libqoaudio.rlib"
rustc --edition 2021 -C opt-level=3 --extern qoaudio="$out/libqoaudio.rlib" \
    -C link-arg="$repo/crates/leaves/out/libleaves.a" "$here/compare.rs" -o "$out/compare"
"$out/compare"
