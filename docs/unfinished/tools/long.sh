#!/usr/bin/env bash
# Times the program on nine hours of speech in mono at 44100 Hz beside decode_all on the same file: user and system seconds, and the peak memory.
# An argument is the number of rounds (3 without one): in each both run, one after the other, and the least of each counts.
# Needs rt, a C compiler, rustc and 4 GB of memory. All it makes goes to target/. On an Arm machine RATTLE_HOME=$(bash tools/arm/kit.sh) CC=cc before it
# has both sides compiled for that processor.
set -euo pipefail
here=$(cd "$(dirname "$0")" && pwd -P)
root=$(cd "$here/../.." && pwd -P)
out=$root/target/long
mkdir -p "$out"
cd "$root"
bash tools/oracle/build.sh
bash tools/library/build.sh

# The program. Only x86-64's can be linked by the kit: for another processor its object is linked by cc, with the one C function of the kit's `os` that it calls.
if [ "$(uname -m)" = x86_64 ]; then
    rt check qoa_decode >"$out/program.log" 2>&1 || { cat "$out/program.log" >&2; exit 1; }
    cp target/bin/qoa_decode "$out/program"
else
    repo=$out/repo
    rm -rf "$repo"
    mkdir -p "$repo/crates" "$repo/target"
    for crate in $(bash tools/library/below.sh qoa_decode); do
        cp -r "crates/$crate" "$repo/crates/"
        grep "^$crate:" crates.txt
    done >"$repo/crates.txt"
    cp -r target/rlib target/stamp "$repo/target/"
    rm -f "$repo/target/stamp/qoa_decode"
    (cd "$repo" && rt check qoa_decode) >"$out/program.log" 2>&1 || true
    grep -q '^logic=proved' "$repo/target/log/qoa_decode.say" || { cat "$out/program.log" >&2; exit 1; }
    cat >"$out/os.c" <<'END'
#include <stddef.h>
static size_t count;
__attribute__((constructor)) static void keep(int argc) { count = argc; }
size_t rattle_arg_count(void) { return count; }
END
    cc -O2 -o "$out/program" "$repo/target/obj/qoa_decode.o" "$out/os.c"
fi

# The file: the frames of a minute of speech again and again. 516 frames of 5120 samples, 541 times, are 9.003 hours.
if [ ! -f "$out/nine.qoa" ]; then
    target/oracle/oracle signal speech 2641920 1 | target/oracle/oracle encode 1 44100 >"$out/minute.qoa"
    python3 - "$out/minute.qoa" "$out/new.qoa" <<'END'
import struct
import sys
data = open(sys.argv[1], "rb").read()
with open(sys.argv[2], "wb") as f:
    f.write(b"qoaf" + struct.pack(">I", 541 * 2641920))
    for _ in range(541):
        f.write(data[8:])
END
    mv "$out/new.qoa" "$out/nine.qoa"
fi

${CC:-cc} -O2 -Iinclude "$here/long.c" target/library/libtromvask.a -o "$out/long"
for _ in $(seq "${1:-3}"); do
    echo "program $("$out/long" run "$out/program" "$out/nine.qoa")"
    echo "decode_all $("$out/long" whole "$out/nine.qoa")"
done | tee "$out/rounds.txt"
awk '
    !($1 in user) || $2 < user[$1] { user[$1] = $2; system_of[$1] = $3 }
    $4 > peak[$1] { peak[$1] = $4 }
    END {
        printf "user seconds: program %.2f, decode_all %.2f, ratio %.3f\n", user["program"], user["decode_all"], user["program"] / user["decode_all"]
        printf "system seconds: program %.2f, decode_all %.2f\n", system_of["program"], system_of["decode_all"]
        printf "peak of the program: %d KiB\n", peak["program"]
    }' "$out/rounds.txt"
