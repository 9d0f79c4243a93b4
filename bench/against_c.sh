#!/usr/bin/env bash
# Times the statistics and the regions of `nd_bench` against the C programs beside this script (gcc -O3 -march=native), which go
# line by line in narrow types. Types, rules and sizes are words on both command lines, so that neither compiler knows them. Each
# pair prints the same checksum, or the script ends. It prints the ratio of the medians of processor time, seven runs each in turn,
# and the nanoseconds a sample. It is no part of the gate.
# Usage: bench/against_c.sh [stats|ranges|region]
set -eu
here=$(cd "$(dirname "$0")/.." && pwd)
crate=$here/crates/nd_bench
source "$here/bench/timing.sh"
work=$(mktemp -d)
trap 'rm -rf "$work"' EXIT
(cd "$crate" && rt run -- stats UInt8 8 0 0 0 0 0 0 4x4 1) > "$work/build.log"
program=$crate/out/nd_bench
for name in stats region; do gcc -O3 -march=native -o "$work/$name" "$here/bench/$name.c"; done

# The ends of a type, and the value in the middle.
first() { case $1 in Int8) echo -128 ;; Int16) echo -32768 ;; Int32) echo -2147483648 ;; *) echo 0 ;; esac; }
last() { case $1 in Int8) echo 127 ;; UInt8) echo 255 ;; Int16) echo 32767 ;; UInt16) echo 65535 ;; Int32) echo 2147483647 ;; UInt32) echo 4294967295 ;; esac; }
middle() { case $1 in UInt8) echo 128 ;; UInt16) echo 32768 ;; UInt32) echo 2147483648 ;; *) echo 0 ;; esac; }

# So many times that sixty million samples are read.
times() { echo $((60000000 / (${1//x/ * }) + 1)); }

# One line of the table: compare LABEL SIZES WORD..
compare() {
    local label=$1 sizes=$2 count
    shift 2
    count=$(times "$sizes")
    cmp <("$program" "$@" "$sizes" 2) <("$work/$1" "$@" "$sizes" 2)
    rm -f "$work"/*.times
    for _ in 1 2 3 4 5 6 7; do
        processor "$program" "$@" "$sizes" "$count" >> "$work/ours.times"
        processor "$work/$1" "$@" "$sizes" "$count" >> "$work/theirs.times"
    done
    awk -v label="$label" -v n="$((count * (${sizes//x/ * })))" -v a="$(median < "$work/ours.times")" -v b="$(median < "$work/theirs.times")" \
        'BEGIN { printf "%s: ratio %.2f (%.2f ns a sample, C %.2f)\n", label, a / b, a / n, b / n }'
}

if [ "${1:-stats}" = stats ]; then
    for sizes in 1024x1024 128x128x64 16x16; do
        for kind in UInt8 UInt16 Int32; do
            compare "stats $sizes $kind, no option" $sizes stats $kind 32 0 0 0 0 0 0
            compare "stats $sizes $kind, all options" $sizes stats $kind 32 "$(middle $kind)" 2 256 "$(first $kind)" "$(last $kind)" 1
        done
    done
fi
# Other samples and ranges, with all options: samples of two bits, as in a dark frame; those of 12 bits in a range of as many; a range that all
# but a few samples lie in; and one that half of the samples lie above, in no order.
if [ "${1:-ranges}" = ranges ]; then
    sizes=1024x1024
    for kind in UInt8 UInt16 Int32; do
        compare "stats $sizes $kind of 2 bits" $sizes stats $kind 2 2 2 256 "$(first $kind)" "$(last $kind)" 1
    done
    compare "stats $sizes UInt16 of 12 bits, range 0 to 4095" $sizes stats UInt16 12 2048 2 256 0 4095 1
    compare "stats $sizes UInt16 of 2 bits, range 0 to 4095" $sizes stats UInt16 2 2 2 256 0 4095 1
    compare "stats $sizes UInt8, range 0 to 254" $sizes stats UInt8 8 128 2 256 0 254 1
    compare "stats $sizes UInt16, range 0 to 65534" $sizes stats UInt16 16 32768 2 256 0 65534 1
    compare "stats $sizes UInt8, range 0 to 127" $sizes stats UInt8 8 128 2 256 0 127 1
    compare "stats $sizes UInt16, range 0 to 32767" $sizes stats UInt16 16 32768 2 256 0 32767 1
fi
if [ "${1:-region}" = region ]; then
    for kind in UInt8 UInt16 Int32; do
        for bin in 1 2 3 4 8; do
            for reverse in 0 1; do
                compare "region 1024x1024 $kind, bin $bin by $bin, reversed $reverse" 1024x1024 region $kind ${bin}x$bin $reverse 1 same
            done
        done
        compare "region 128x128x64 $kind, bin 2 by 2 by 2" 128x128x64 region $kind 2x2x2 0 1 same
    done
fi
