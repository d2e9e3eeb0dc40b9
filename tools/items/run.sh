#!/usr/bin/env bash
# Times item iteration through the C interface beside the Rust source's iterator: the item step for each item, and small blocks, as a caller in
# a hurry has them. An argument is the number of rounds (20 without one). Needs rt, a C compiler and rustc. All it makes goes to target/.
set -eu
here=$(cd "$(dirname "$0")" && pwd -P)
root=$(cd "$here/../.." && pwd -P)
out=$root/target/items
from=$(bash "$root/tools/oracle/source.sh")
mkdir -p "$out"
bash "$root/tools/library/build.sh"
rustc --edition 2021 -C opt-level=3 --crate-type rlib --crate-name qoaudio "$from" -o "$out/libqoaudio.rlib"
rustc --edition 2021 -C opt-level=3 --extern qoaudio="$out/libqoaudio.rlib" \
    -C link-arg="$root/target/library/libtromvask.a" "$here/items.rs" -o "$out/items"
"$out/items" "$@"
