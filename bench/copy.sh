#!/usr/bin/env bash
# Times `nd_replay copy` against a plain C program that keeps the whole file in memory, too (copy.c), by processor time, seven times each
# in turn, at three sizes of frames of unsigned bytes; compares what both wrote; and prints the medians, their ratio, the most memory that
# `copy` took beside the file, four frames and 64 MiB, and its growth at twice and four times the frames. It is no part of the gate.
set -eu
source "$(dirname "$0")/program.sh"
cd "$work"
while read -r side frames; do
    make_stack "$frames" "$side"
    gcc -O3 -march=native -D SIDE="$side" -o copy_c "$here/bench/copy.c"
    ratio_of "copy $frames frames of $side x $side" "$work" "$program" copy stack.nc x_ -- ./copy_c stack.nc c.nc
    cmp x_copy_000.nc c.nc
    resident stack.nc $((4 * side * side + 67108864)) "$program" copy stack.nc x_
done << 'SIZES'
1024 200
256 2000
16 65536
SIZES
growth 100 "$program" copy stack.nc x_
