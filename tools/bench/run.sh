#!/usr/bin/env bash
# Times the library beside the Rust source in one process. Prints a table of nanoseconds per sample and of ratios.
# An argument is the number of rounds (30 without one). Needs rt, a C compiler and rustc. All it makes goes to target/.
# QOA_H=PATH/qoa.h, the reference C's header (Debian's libqoa-dev), has it timed too, compiled by cc.
set -eu
here=$(cd "$(dirname "$0")" && pwd -P)
root=$(cd "$here/../.." && pwd -P)
out=$root/target/bench
from=$(bash "$root/tools/oracle/source.sh")
mkdir -p "$out"
bash "$root/tools/library/build.sh"

# The port's own loop over decode_into, with its state by value, which the C interface is compared with: glue in a crate of its own. 
# Its files stand outside of this checkout, where rt would take them for its own.
repo=${TMPDIR:-/tmp}/tromvask-bench
rm -rf "$repo"
mkdir -p "$repo/crates/blocks/src" "$repo/crates/blocks/proofs/blocks_decode"
for crate in $(bash "$root/tools/library/below.sh" state decoder); do
    mkdir -p "$repo/crates/$crate"
    for part in src specs proofs; do [ ! -d "$root/crates/$crate/$part" ] || cp -r "$root/crates/$crate/$part" "$repo/crates/$crate/"; done
    grep "^$crate:" "$root/crates.txt"
done >"$repo/crates.txt"
echo 'blocks staticlib: refusal state into frames decoder' >>"$repo/crates.txt"
cp "$here/blocks.rt.txt" "$repo/crates/blocks/src/lib.rt"
cp "$here/blocks_decode.antt.txt" "$repo/crates/blocks/proofs/blocks_decode/Invariants.antt"
(cd "$repo/crates/blocks" && rt lib) >"$out/blocks.log" 2>&1 || { cat "$out/blocks.log" >&2; exit 1; }

rustc --edition 2021 -C opt-level=3 --crate-type rlib --crate-name qoaudio "$from" -o "$out/libqoaudio.rlib"
reference=()
if [ -n "${QOA_H:-}" ]; then
    cc -O3 -I"$(dirname "$QOA_H")" -c "$here/reference.c" -o "$out/reference.o"
    reference=(--cfg reference -C link-arg="$out/reference.o")
fi
rustc --edition 2021 -C opt-level=3 --extern qoaudio="$out/libqoaudio.rlib" --check-cfg 'cfg(reference)' "${reference[@]}" \
    -C link-arg="$root/target/library/libtromvask.a" -C link-arg="$repo/crates/blocks/out/libblocks.a" "$here/bench.rs" -o "$out/bench"
"$out/bench" "$@"
