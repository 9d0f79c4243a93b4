#!/usr/bin/env bash
# Times `nd_replay orient` in its eight modes and `nd_replay correct` against a plain C program that keeps the whole file in memory, too (orient.c),
# by processor time, seven times each in turn, over 100 frames of 1,024 by 1,024 samples, UInt8, UInt16 and Int32; compares what both wrote; and
# prints the medians, their ratio, and the most memory that each command took beside the files, four frames and 64 MiB. It is no part of the gate.
set -eu
source "$(dirname "$0")/program.sh"

frames=100 side=1024
rule=(100 3 2 0 20000)

# Times the program and the C program with these words, which name the file that is written NAME, and compares the two files:
# against_c LABEL WORD..
against_c() {
    local label=$1
    shift
    ratio_of "$label" "$work" "$program" "${@/#NAME/ours.nc}" -- ./orient_c "${@/#NAME/theirs.nc}"
    cmp ours.nc theirs.nc
}

cd "$work"
gcc -O3 -march=native -o orient_c "$here/bench/orient.c"
while read -r type bytes; do
    make_stack $frames $side "$type"
    make_stack 1 $side "$type" dark.nc 2
    for mode in 0 1 2 3 4 5 6 7; do
        against_c "orient $mode of $frames frames of $side x $side $type" orient $mode stack.nc NAME
    done
    against_c "correct of these" correct dark.nc stack.nc NAME "${rule[@]}"
    resident stack.nc $((4 * side * side * bytes + 67108864)) "$program" orient 1 stack.nc ours.nc
    resident stack.nc $((5 * side * side * bytes + 67108864)) "$program" correct dark.nc stack.nc ours.nc "${rule[@]}"
done << 'SIZES'
UInt8 1
UInt16 2
Int32 4
SIZES
