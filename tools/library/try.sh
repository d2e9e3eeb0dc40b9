#!/usr/bin/env bash
# Builds the library and links a program with it in every way: statically, dynamically, by pkg-config, as C and as C++, with the
# header's examples and the reference C's names in it; and runs each. Needs rt and a C compiler (CC, or cc); c++ (CXX) and pkg-config
# are used where they are there. RUN is put before a program, where CC compiles for another processor. All it makes goes to target/.
set -eu
here=$(cd "$(dirname "$0")" && pwd -P)
root=$(cd "$here/../.." && pwd -P)
lib=$root/target/library
out=$root/target/try
bash "$here/build.sh"
rm -rf "$out"
mkdir -p "$out/moved"
# The examples of the header's comments, without their frame.
sed -n '/^     \/\/ \(Plays\|Records\)/,/^     }/ { s/^     //; s/ \*\/$//; p }' "$lib/include/tromvask.h" >"$out/examples.inc"
[ "$(grep -c '^}' "$out/examples.inc")" = 2 ]
strict='-Wall -Wextra -pedantic -Werror -O2'

# tried NAME COMMAND..: compiles try.c by it, and runs that
tried() {
    local name=$1
    shift
    "$@" -o "$out/$name"
    echo -n "$name: "
    ${RUN:-} "$out/$name"
}
cc=${CC:-cc}
tried c99-archive $cc -std=c99 $strict -I"$out" -I"$lib/include" "$here/try.c" "$lib/libtromvask.a"
tried c17-static-name $cc -std=c17 $strict -I"$out" -I"$lib/include" "$here/try.c" -L"$lib" -Wl,-Bstatic -ltromvask -Wl,-Bdynamic
tried c99-shared $cc -std=c99 $strict -I"$out" -I"$lib/include" "$here/try.c" -L"$lib" -ltromvask -Wl,-rpath,"$lib"
cxx=${CXX:-$([ "$cc" != cc ] || command -v c++ || true)}
if [ -n "$cxx" ]; then
    tried cxx-archive $cxx -x c++ $strict -I"$out" -I"$lib/include" "$here/try.c" -x none "$lib/libtromvask.a"
    tried cxx-shared $cxx -x c++ -std=c++11 $strict -I"$out" -I"$lib/include" "$here/try.c" -x none -L"$lib" -ltromvask -Wl,-rpath,"$lib"
fi
# pkg-config finds all by where its file lies: here, and in a copy at another place.
if command -v pkg-config >/dev/null; then
    cp -r "$lib/include" "$lib"/libtromvask.* "$lib/tromvask.pc" "$out/moved/"
    for at in "$lib" "$out/moved"; do
        export PKG_CONFIG_PATH=$at
        tried "pkg-config-${at##*/}" $cc -std=c99 $strict -I"$out" $(pkg-config --cflags tromvask) "$here/try.c" $(pkg-config --libs tromvask) -Wl,-rpath,"$at"
        [ "$(pkg-config --modversion tromvask)" = "$(sed -n 's/^#define TROMVASK_VERSION_[A-Z]* //p' "$lib/include/tromvask.h" | paste -sd.)" ]
    done
fi
echo 'library: all as it should be'
