#!/usr/bin/env bash
# Runs every input of docs/DIFFERENCES.md on the source and compares its answers with those written in differences.txt.
# Each run has 4 GB of memory. Prints how many agreed; status 1 and the first that did not, where one did not.
set -eu
here=$(cd "$(dirname "$0")" && pwd -P)
root=$(cd "$here/../.." && pwd -P)
bash "$here/build.sh" >/dev/null
call='' wanted='' count=0

try() {
    [ -n "$call" ] || return 0
    # shellcheck disable=SC2086
    got=$(ulimit -v 4000000; RUST_BACKTRACE=0 "$root/target/oracle/oracle" $call 2>&1) || true
    # shellcheck disable=SC2053
    if [[ $got != $wanted ]]; then
        printf 'not as written: oracle %s\nwritten:\n%s\nanswered:\n%s\n' "$call" "$wanted" "$got"
        exit 1
    fi
    count=$((count + 1)) call=''
}

set -f
while IFS= read -r line; do
    case $line in
    '$ '*) try; call=${line#'$ '} wanted='' ;;
    '#'* | '') try ;;
    *) wanted=$wanted${wanted:+$'\n'}$line ;;
    esac
done <"$here/differences.txt"
try

# 5: one byte more than 32 bits can count; the source looks at the first four
got=$(head -c 4294967296 /dev/zero | "$root/target/oracle/oracle" decode 2>&1) || true
[ "$got" = NotQoaFile ] || { echo "not as written: 4294967296 bytes 00: $got"; exit 1; }
echo "$((count + 1)) inputs answered by the source as docs/DIFFERENCES.md says"
