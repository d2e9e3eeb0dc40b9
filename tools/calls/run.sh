#!/usr/bin/env bash
# Compares calls on states with the Rust source, in one process with the library: decode_into, next_frame, items and facts mixed at random on one
# decoder, frames and files from one encoder, and any block of bytes handed in. run.sh [COUNT] [SEED]. Needs rt, a C compiler and rustc.
# All it makes goes to target/.
set -eu
here=$(cd "$(dirname "$0")" && pwd -P)
root=$(cd "$here/../.." && pwd -P)
out=$root/target/calls
from=$(bash "$root/tools/oracle/source.sh")
mkdir -p "$out"
bash "$root/tools/library/build.sh"
# The unchanged source, with a module after it that looks into its private states.
cat "$from" "$here/appended.rs" >"$out/qoaudio.rs"
rustc --edition 2021 -C opt-level=3 --crate-type rlib --crate-name qoaudio "$out/qoaudio.rs" -o "$out/libqoaudio.rlib"
rustc --edition 2021 -C opt-level=3 --extern qoaudio="$out/libqoaudio.rlib" -C link-arg="$root/target/library/libtromvask.a" \
    "$here/calls.rs" -o "$out/calls"
"$out/calls" "$@"
