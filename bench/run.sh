#!/usr/bin/env bash
# Times `nd_replay run` through a region of two by two, statistics and a file, both of them with several threads and sorted, beside
# `plain` of the same graph, the C program of plain.c in one thread and in as many, and `watch`; at three sizes of frames, by wall clock, five
# times each in turn. Compares the files of all, prints ratios of medians, and the most memory that `run` takes with a limit of
# the pool. It is no part of the gate.
set -eu
source "$(dirname "$0")/program.sh"

# The graph with so many threads at the region and the statistics, and a limit of the pool in bytes, where 0 is none:
# write_graph THREADS LIMIT
write_graph() {
    cat << GRAPH
[run]
feed = "wait"
pool = $2

[[node]]
name = "half"
kind = "roi"
input = "driver"
bin = [2, 2]
type = "UInt16"
queue = 64
threads = $1
sort = 65535
sort_time = 2147483647

[[node]]
name = "st"
kind = "stats"
input = "half"
queue = 65535
threads = $1
sort = 65535
sort_time = 2147483647

[[node]]
name = "cap"
kind = "file"
input = "st"
queue = 65535
mode = "stream"
count = 65536
GRAPH
}

# The median of five runs of each of these commands, taken in turn, one a line: medians COMMAND..
medians() {
    local times command
    rm -f "$work"/times.*
    for _ in 1 2 3 4 5; do
        times=0
        for command in "$@"; do
            nanoseconds $command >> "$work/times.$times"
            times=$((times + 1))
        done
    done
    for ((times = 0; times < $#; times++)); do median < "$work/times.$times"; done
}

cd "$work"
for threads in 1 2 4 8; do write_graph $threads 0 > graph$threads.toml; done
write_graph 4 67108864 > limited.toml
while read -r side frames; do
    make_stack "$frames" "$side"
    gcc -O3 -march=native -pthread -D SIDE="$side" -o plain_c "$here/bench/plain.c"
    mapfile -t all < <(medians "$program plain graph4.toml stack.nc p_" "$program run graph1.toml stack.nc r_" "$program run graph2.toml stack.nc r_" \
        "$program run graph4.toml stack.nc r_" "$program run graph8.toml stack.nc r_" "./plain_c stack.nc c.nc c.txt" "./plain_c stack.nc c4.nc c4.txt none 4" \
        "$program watch graph4.toml stack.nc w_")
    for name in r_cap_000.nc p_cap_000.nc w_cap_000.nc c4.nc; do cmp "$name" c.nc; done
    for name in r_st.txt p_st.txt w_st.txt c4.txt; do cmp "$name" c.txt; done
    echo "${all[@]}" | awk -v side="$side" -v frames="$frames" '{
        printf "%d frames of %d x %d: plain %.1f ms, run by 1, 2, 4, 8 threads %.2f %.2f %.2f %.2f of plain; plain %.2f of C, run by 4 threads %.2f of C by 4, watch %.2f of run\n",
            frames, side, side, $1 / 1e6, $2 / $1, $3 / $1, $4 / $1, $5 / $1, $1 / $6, $4 / $7, $8 / $4 }'
    /usr/bin/time -f %M -o peak "$program" run limited.toml stack.nc l_ > report
    awk -v peak="$(cat peak)" -v size="$(stat -c %s stack.nc)" \
        'BEGIN { printf "memory %.1f MiB; stack, limit of the pool and 64 MiB %.1f MiB\n", peak / 1024, size / 1048576 + 64 + 64 }'
done << 'SIZES'
1024 200
256 2000
16 65536
SIZES
