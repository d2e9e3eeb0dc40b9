#!/usr/bin/env bash
# Compares the library, proved and compiled, with the Rust source: whole files, streaming frames, facts and frame parts.
# run.sh: under a minute. run.sh long: over ten million inputs. run.sh KIND COUNT [SEED]: one kind of input.
# Needs rt, a C compiler and rustc. All it makes goes to target/.
set -eu
here=$(cd "$(dirname "$0")" && pwd -P)
root=$(cd "$here/../.." && pwd -P)
out=$root/target/compare
from=$(bash "$root/tools/oracle/source.sh")
mkdir -p "$out"
bash "$root/tools/library/build.sh"
rustc --edition 2021 -C opt-level=3 --crate-type rlib --crate-name qoaudio "$from" -o "$out/libqoaudio.rlib"
rustc --edition 2021 -C opt-level=3 --extern qoaudio="$out/libqoaudio.rlib" \
    -C link-arg="$root/target/library/libtromvask.a" "$here/compare.rs" -o "$out/compare"
"$out/compare" "$@"
