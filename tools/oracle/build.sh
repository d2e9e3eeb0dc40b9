#!/usr/bin/env bash
# Builds target/oracle/oracle: the Rust source, unchanged, with a command line over it. Needs rustc and nothing else.
set -eu
here=$(cd "$(dirname "$0")" && pwd -P)
root=$(cd "$here/../.." && pwd -P)
out=$root/target/oracle
from=$(bash "$here/source.sh")
command -v rustc >/dev/null || { echo "rustc is not to be found" >&2; exit 1; }
mkdir -p "$out"
rustc --edition 2021 -C opt-level=3 --crate-type rlib --crate-name qoaudio "$from" -o "$out/libqoaudio.rlib"
rustc --edition 2021 -C opt-level=3 --extern qoaudio="$out/libqoaudio.rlib" "$here/oracle.rs" -o "$out/oracle"
echo "built target/oracle/oracle"
