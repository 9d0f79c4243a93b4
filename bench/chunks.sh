#!/usr/bin/env bash
# Times the statistics of one array in chunks, by as many threads as there are processors, beside those by the thread that asks for them.
# Then `nd_replay run` of one statistics node over large frames: with one thread, whose arrays are measured in chunks where processors are
# to spare and they are counted in a histogram, beside `plain` of the same graph, which measures in one thread; and with eight threads, by this program and by another one
# where its path is given, as bench/chunks.sh OTHER. With no option and with all, by wall clock, seven times each in turn. Compares the
# rows, and prints medians and their ratios. It is no part of the gate.
set -eu
other=${1:+$(realpath "$1")}
source "$(dirname "$0")/program.sh"
(cd "$here/crates/nd_bench" && rt run -- stats UInt8 8 0 0 0 0 0 0 4x4 1) > "$work/build.log"
bench=$here/crates/nd_bench/out/nd_bench

# The graph with so many threads, and with a threshold, a border, a histogram and profiles or with none of them: write_graph THREADS OPTIONS
write_graph() {
    printf '[run]\nfeed = "wait"\n\n[[node]]\nname = "st"\nkind = "stats"\ninput = "driver"\nqueue = 64\nthreads = %s\nsort = 65535\nsort_time = 2147483647\n' "$1"
    if [ "$2" = all ]; then printf 'threshold = 128\nborder = 2\nhist_size = 256\nhist_hi = 255\nprofiles = true\n'; fi
}

# Times two commands in turn and prints both and their ratio: compare LABEL COMMAND.. -- COMMAND..
compare() {
    local label=$1
    shift
    runs=7 alternate "$work" "$@" | awk -v label="$label" '{ printf "%s: %.1f ms, %.1f ms, ratio %.2f\n", label, $1 / 1e6, $2 / 1e6, $1 / $2 }'
}

# Arrays of one size in chunks, beside one thread: arrays LABEL WORD..
arrays() {
    local label=$1
    shift
    compare "$label, in chunks beside one thread" "$bench" chunks "$@" -- "$bench" stats "$@"
}

cd "$work"
for kind in UInt8 UInt16 Int32; do
    arrays "25 arrays of 2048 x 2048 $kind, no option" $kind 8 0 0 0 0 0 0 2048x2048 25
    arrays "100 arrays of 1024 x 1024 $kind, all options" $kind 8 128 2 256 0 255 1 1024x1024 100
done
for kind in UInt8 UInt16; do
    make_stack 100 1024 $kind
    for options in no all; do
        label="100 frames of 1024 x 1024 $kind, $options options"
        write_graph 1 $options > one.toml
        write_graph 8 $options > eight.toml
        compare "$label, run with one thread beside plain" "$program" run one.toml stack.nc r_ -- "$program" plain one.toml stack.nc p_
        cmp r_st.txt p_st.txt
        compare "$label, run with eight threads beside one" "$program" run eight.toml stack.nc e_ -- "$program" run one.toml stack.nc r_
        cmp e_st.txt p_st.txt
        if [ -n "$other" ]; then
            compare "$label, one thread, beside the other program" "$program" run one.toml stack.nc r_ -- "$other" run one.toml stack.nc o_
            compare "$label, eight threads, beside the other program" "$program" run eight.toml stack.nc r_ -- "$other" run eight.toml stack.nc o_
        fi
    done
done
