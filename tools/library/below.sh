#!/usr/bin/env bash
# Prints the crates named and all crates of the repository that they stand on, one to a line: below.sh NAME ..
set -eu
root=$(cd "$(dirname "$0")/../.." && pwd -P)
all=" $* " before=''
until [ "$all" = "$before" ]; do
    before=$all
    for crate in $before; do
        for dep in $(sed -nE "s/#.*//; s/^$crate( [^:]*)?://p" "$root/crates.txt"); do
            case $all in *" $dep "*) ;; *) [ ! -d "$root/crates/$dep" ] || all="$all$dep " ;; esac
        done
    done
done
printf '%s\n' $all | LC_ALL=C sort
