#!/usr/bin/env bash
# Builds the C and the Rust example over the library and runs both. Needs rt, a C compiler (CC, or cc) and rustc.
# All it makes goes to target/examples.
set -eu
here=$(cd "$(dirname "$0")" && pwd -P)
root=$(cd "$here/.." && pwd -P)
out=$root/target/examples
bash "$root/tools/library/build.sh"
lib=$root/target/library
rm -rf "$out"
mkdir -p "$out"
${CC:-cc} -std=c99 -O2 -Wall -Wextra -pedantic -Werror -I"$lib/include" "$here/convert.c" "$lib/libtromvask.a" -o "$out/convert-c"
rustc --edition 2021 -O "$here/convert.rs" -C link-arg="$lib/libtromvask.a" -o "$out/convert-rust"
cd "$out"

# FORMAT.md's example file: one mono sample at 44100 Hz, which reads as 1
printf 'qoaf\0\0\0\1\1\0\254\104\0\1\0\40\0\0\0\0\0\0\0\0\0\0\0\0\340\0\100\0\0\0\0\0\0\0\0\0' >one.qoa
printf '\1\0' >one.raw
printf '\0\0' >zero.raw
# any file is samples: this repository's text, as two channels; six times over it takes three frames
head -c 8000 "$root/docs/DIFFERENCES.md" >text.raw
for i in 1 2 3 4 5 6; do cat text.raw; done >long.raw
# -8000, 16000, -8000, -32768 over and over drives a weight out of its range before the second frame
for i in $(seq 1281); do printf '\300\340\200\076\300\340\000\200'; done | head -c 10242 >wide.raw
head -c 30 one.qoa >cut.qoa
printf 'not a file' >other.qoa
printf 'odd' >odd
: >empty
# streams: no frame; a frame of one channel and one of two
printf 'qoaf\0\0\0\0' >none.qoa
{ cat none.qoa; tail -c 32 one.qoa; } >stream.qoa
{ cat stream.qoa; printf '\2\0\254\104\0\1\0\70'; head -c 48 /dev/zero; } >differ.qoa

# wants STATUS WORDS COMMAND..: runs it, holds its status and what it says to these
wants() {
    local status=$1 words=$2 got=0 said
    shift 2
    said=$("$@" 2>&1) || got=$?
    if [ "$got" != "$status" ] || [ "${said#*"$words"}" = "$said" ]; then
        echo "FAILED: $* (status $got, said: $said)" >&2
        exit 1
    fi
    echo "ok: $* ($got: $said)"
}
# holds: what must be so
holds() { "$@" || { echo "FAILED: $*" >&2; exit 1; }; }
absent() { [ ! -e "$1" ]; }

for convert in ./convert-c ./convert-rust; do
    rm -rf back* same* ./*.part
    wants 0 '1 samples, 1 channels at 44100 Hz' $convert decode one.qoa back.raw
    holds cmp one.raw back.raw
    wants 0 '1 samples, 1 channels at 44100 Hz' $convert decode stream.qoa back.raw
    holds cmp one.raw back.raw
    wants 1 'cut short' $convert decode cut.qoa back.raw
    wants 1 'cut short' $convert decode empty back.raw
    wants 1 'not a QOA file' $convert decode other.qoa back.raw
    wants 1 'no frame in the file' $convert decode none.qoa back.raw
    wants 1 'absent.qoa' $convert decode absent.qoa back.raw
    wants 1 'absent/back.raw' $convert decode one.qoa absent/back.raw
    wants 1 'no regular file' $convert decode one.qoa .
    wants 1 'usage' $convert
    holds cmp one.raw back.raw
    holds absent back.raw.part
    wants 1 "differ from the first one's" $convert decode differ.qoa back.raw
    holds cmp one.raw back.raw
    holds cmp one.raw back.raw.part

    wants 0 '40 bytes' $convert encode 1 44100 zero.raw zero.qoa
    holds cmp one.qoa zero.qoa
    wants 0 'bytes' $convert encode 2 22050 text.raw text.qoa
    wants 0 '4000 samples, 2 channels at 22050 Hz' $convert decode text.qoa text.back
    wants 0 'bytes' $convert encode 2 22050 long.raw long.qoa
    wants 0 '24000 samples, 2 channels at 22050 Hz' $convert decode long.qoa long.back
    for bad in 0 256 -1 nine; do wants 1 'no channels, or too many' $convert encode $bad 44100 zero.raw back.qoa; done
    wants 1 'no channels, or too many' $convert encode 255 44100 empty back.qoa
    for bad in 0 16777216 99999999999 fast; do wants 1 'a rate of zero, or too high' $convert encode 1 $bad zero.raw back.qoa; done
    wants 1 'no samples' $convert encode 1 44100 empty back.qoa
    wants 1 'not the same number for each channel' $convert encode 3 44100 zero.raw back.qoa
    wants 1 'not the same number for each channel' $convert encode 1 44100 odd back.qoa
    holds absent back.qoa
    wants 1 'left its range' $convert encode 1 1 wide.raw back.qoa
    wants 1 '2080 bytes up to there' $convert encode 1 1 wide.raw back.qoa
    holds absent back.qoa

    # A file cut in a frame: the frames before it are there. Cut between two frames: accepted, and told.
    head -c 5000 long.qoa >back.cut
    wants 1 '20480 bytes up to there' $convert decode back.cut back.long
    holds absent back.long
    holds cmp -n 20480 long.back back.long.part
    head -c $((8 + 40 + 4096)) long.qoa >back.between
    wants 0 'tells of 12000 samples per channel, and 5120 are there' $convert decode back.between back.long
    holds cmp -n 20480 long.back back.long

    # The output may be the input.
    cp long.raw same
    wants 0 'bytes' $convert encode 2 22050 same same
    holds cmp same long.qoa
    wants 0 '24000 samples' $convert decode same same
    holds cmp same long.back
    for made in text.qoa text.back long.qoa long.back; do mv $made "$made.${convert##*-}"; done
done
for made in text.qoa text.back long.qoa long.back; do holds cmp "$made.c" "$made.rust"; done
echo 'examples: all as they should be'
