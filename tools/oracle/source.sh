#!/usr/bin/env bash
# Prints the path of the Rust source: docs/src/lib.rs, or else the document beside the repository. The text is
# never part of this repository, and is compiled unchanged.
set -eu
root=$(cd "$(dirname "$0")/../.." && pwd -P)
known=e9d1e0f47cb155e9bc8b34a472f19caf369a2016f16e4df3c8e3e70de9eaacda
for at in docs/src/lib.rs ../shared/documents/src--src--lib.rs.txt; do
    [ -f "$root/$at" ] || continue
    sum=$(sha256sum <"$root/$at" | cut -d' ' -f1)
    [ "$sum" = "$known" ] || echo "note: $at is another text than the one these tools were written for (sha256 $sum)" >&2
    printf '%s\n' "$root/$at"
    exit 0
done
echo "The Rust source is neither at docs/src/lib.rs nor at ../shared/documents/src--src--lib.rs.txt" >&2
echo "(both seen from the repository's root). It is src/lib.rs of the crate qoaudio; put it at the first place." >&2
exit 1
