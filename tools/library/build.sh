#!/usr/bin/env bash
# Makes the library for C, C++ and Rust under target/library: libtromvask.a, libtromvask.so, include/tromvask.h and tromvask.pc.
# Needs rt and a C compiler for x86-64, which is what rt compiles for: CC, or the first of cc, x86_64-linux-gnu-gcc and clang that is one. With it
# comes nm (NM names another). What has not changed is not made again.
set -euo pipefail
export LC_ALL=C
root=$(cd "$(dirname "$0")/../.." && pwd -P)
out=$root/target/library
cc=${CC:-} nm=${NM:-nm}
header=$root/include/tromvask.h
mkdir -p "$out/parts" "$out/include"
trap 'rm -rf "$out/new"' EXIT
say() { echo "library: $*"; }
fail() { echo "library: $*" >&2; exit 1; }
for one in cc x86_64-linux-gnu-gcc 'clang --target=x86_64-linux-gnu'; do
    [ -n "$cc" ] || case $($one -dumpmachine 2>/dev/null || true) in x86_64*) cc=$one ;; esac
done
[ -n "$cc" ] || fail 'no C compiler for x86-64 was found (CC names one)'

# What the archive depends on: the toolchain, and the lines of crates.txt and the files of those crates.
sum() {
    {
        rt version
        for crate in $(bash "$root/tools/library/below.sh" tromvask); do
            sed -n "s/#.*//; /^$crate[ :]/p" "$root/crates.txt"
            (cd "$root/crates/$crate" && find src specs proofs -type f -exec sha256sum {} + 2>/dev/null | sort -k 2)
        done
    } | sha256sum | cut -d' ' -f1
}

# The archive of the crate tromvask has all that it needs, and only its functions are seen from outside.
[ -d "$root/crates/tromvask" ] || fail 'crates/tromvask is not there'
part=$out/parts/libtromvask.a
now=$(sum)
if [ -f "$part" ] && [ "$(cat "$out/parts/tromvask.sum" 2>/dev/null)" = "$now" ]; then
    say 'the archive has not changed'
else
    say 'proving and compiling (rt lib in crates/tromvask)'
    rm -f "$out/parts/tromvask.sum"
    (cd "$root/crates/tromvask" && rt lib) >"$out/parts/tromvask.log" 2>&1 ||
        { cat "$out/parts/tromvask.log" >&2; fail 'rt lib failed'; }
    cp "$root/crates/tromvask/out/libtromvask.a" "$part"
    echo "$now" >"$out/parts/tromvask.sum"
fi
rm -rf "$out/new"
mkdir "$out/new"
cp "$part" "$out/new/libtromvask.a"

# The header's functions and the archive's are the same, each there once; all else is local, and nothing is needed but memcpy and memset.
declared=$(sed -n 's/^\(int64_t\|double\) \(qoa_[a-z_]*\)(.*/\2/p' "$header" | sort)
defined=$("$nm" -g --defined-only "$out/new/libtromvask.a" | awk 'NF == 3 { print $3 }' | sort)
needed=$("$nm" -g -u "$out/new/libtromvask.a" | awk 'NF == 2 { print $2 }' | sort -u | tr '\n' ' ')
[ "$declared" = "$defined" ] || { diff <(echo "$declared") <(echo "$defined") >&2 || true; fail 'the header (<) and the archive (>) have other functions'; }
for name in $needed; do case $name in memcpy | memset) ;; *) fail "the archive needs $name" ;; esac; done

# The shared library, which finds memcpy and memset in the program's own C library; the header; the file for pkg-config.
$cc -shared -nostdlib -Wl,-soname,libtromvask.so.0 -Wl,-z,noexecstack -Wl,--whole-archive "$out/new/libtromvask.a" -Wl,--no-whole-archive \
    -o "$out/new/libtromvask.so" || fail "$cc did not link the shared library"
version=$(sed -n 's/^#define TROMVASK_VERSION_[A-Z]* \([0-9]*\)$/\1/p' "$header" | tr '\n' '.')
cat >"$out/new/tromvask.pc" <<END
prefix=\${pcfiledir}
includedir=\${prefix}/include
libdir=\${prefix}

Name: tromvask
Description: A proved QOA codec
Version: ${version%.}
Cflags: -I\${includedir}
Libs: -L\${libdir} -ltromvask
END
cp "$header" "$out/include/tromvask.h"
mv -f "$out/new/libtromvask.a" "$out/new/libtromvask.so" "$out/new/tromvask.pc" "$out/"
cp "$out/libtromvask.so" "$out/libtromvask.so.0"
say "target/library has libtromvask.a, libtromvask.so, include/tromvask.h and tromvask.pc: $(echo "$defined" | wc -l) functions, which need ${needed% }"
