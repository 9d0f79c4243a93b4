#!/usr/bin/env bash
# Times `nd_replay series` against a plain C program that keeps the whole file in memory, too (series.c), by processor time, seven times each
# in turn, with 1, 8 and 32 regions of 100 by 100 in 200 frames of 1,024 by 1,024 samples, UInt8 and UInt16; compares what both wrote; and
# prints the medians, their ratio, and the most memory that `series` took beside the file, four frames and 64 MiB. It is no part of the gate.
set -eu
source "$(dirname "$0")/program.sh"

# So many regions of 100 by 100, no two at one place: regions COUNT
regions() {
    local k separator=''
    for ((k = 0; k < $1; k++)); do
        printf '%s%d,%d,100,100' "$separator" $((k * 29)) $((k * 411 % 925))
        separator=';'
    done
}

cd "$work"
gcc -O3 -march=native -o series_c "$here/bench/series.c"
for type in UInt8 UInt16; do
    make_stack 200 1024 $type
    for count in 1 8 32; do
        boxes=$(regions $count)
        ratio_of "series of $count regions of 100 x 100 in 200 frames of 1024 x 1024 $type" "$work" \
            "$program" series 100 "$boxes" stack.nc ours.txt -- ./series_c $type 100 "$boxes" stack.nc theirs.txt
        cmp ours.txt theirs.txt
    done
    resident stack.nc $((8 * 1024 * 1024 + 67108864)) "$program" series 100 "$(regions 32)" stack.nc ours.txt
done
