#!/usr/bin/env bash
# Times `nd_replay plain` through a region of two by two, statistics and a file against a plain C program of the same that keeps the whole
# file in memory, too (plain.c), by processor time, seven times each in turn, at three sizes of frames of unsigned bytes, without the options
# of statistics and with all of them; compares what both wrote; and prints the medians, their ratio, the most memory that `plain` took beside
# the file, four frames and 64 MiB, and its growth at twice and four times the frames. It is no part of the gate.
set -eu
source "$(dirname "$0")/program.sh"

# The graph, with these lines more at the statistics: write_graph LINES
write_graph() {
    cat << GRAPH
[[node]]
name = "half"
kind = "roi"
input = "driver"
bin = [2, 2]
type = "UInt16"

[[node]]
name = "st"
kind = "stats"
input = "half"
$1

[[node]]
name = "cap"
kind = "file"
input = "st"
mode = "stream"
count = 65536
GRAPH
}

cd "$work"
write_graph '' > none.toml
write_graph 'threshold = 510
border = 2
hist_size = 256
hist_lo = 0
hist_hi = 1020
profiles = true' > all.toml
while read -r side frames; do
    make_stack "$frames" "$side"
    gcc -O3 -march=native -pthread -D SIDE="$side" -o plain_c "$here/bench/plain.c"
    for options in none all; do
        ratio_of "plain $frames frames of $side x $side, options of statistics: $options" "$work" \
            "$program" plain $options.toml stack.nc x_ -- ./plain_c stack.nc c.nc c.txt $options
        cmp x_cap_000.nc c.nc
        cmp x_st.txt c.txt
    done
    resident stack.nc $((4 * side * side + 67108864)) "$program" plain all.toml stack.nc x_
done << 'SIZES'
1024 200
256 2000
16 65536
SIZES
growth 100 "$program" plain none.toml stack.nc x_
