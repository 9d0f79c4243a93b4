#!/usr/bin/env bash
# Times `nd_replay run` of statistics in one thread, with a window behind it whose trigger never fires, and the same with 16 more
# threads at a region behind the window, which never get an array: by wall clock, seven times each in turn, at two sizes of frames.
# Prints the medians and their ratio. It is no part of the gate.
set -eu
source "$(dirname "$0")/program.sh"

cat > "$work/alone.toml" << 'GRAPH'
[run]
feed = "wait"

[[node]]
name = "st"
kind = "stats"
input = "driver"
queue = 64

[[node]]
name = "never"
kind = "circular"
input = "st"
queue = 65535
trigger = "0"
GRAPH
cat "$work/alone.toml" - > "$work/idle.toml" << 'GRAPH'

[[node]]
name = "idle"
kind = "roi"
input = "never"
threads = 16
GRAPH

cd "$work"
while read -r side frames; do
    make_stack "$frames" "$side"
    rm -f ./*.times
    for _ in 1 2 3 4 5 6 7; do
        nanoseconds "$program" run alone.toml stack.nc a_ >> alone.times
        nanoseconds "$program" run idle.toml stack.nc i_ >> idle.times
    done
    cmp a_st.txt i_st.txt
    awk -v side="$side" -v frames="$frames" -v a="$(median < alone.times)" -v b="$(median < idle.times)" \
        'BEGIN { printf "%d frames of %d x %d: alone %.1f ms, beside 16 idle threads %.1f ms, ratio %.2f\n", frames, side, side, a / 1e6, b / 1e6, b / a }'
done << 'SIZES'
1024 200
256 2000
SIZES
