#!/usr/bin/env bash
# Times calls through the turn lock beside a `Mutex` of the toolchain's std and a pthread mutex of C (gcc -O3): alone, with 2, 4
# and 16 threads, and beside 12 idle threads that poll. Each is run seven times in turn; it prints the medians in nanoseconds a
# call, and the turn lock's ratios to both. It is no part of the gate. Usage: bench/lock.sh [WORKLOAD:COUNT..], as 1:10000000
set -eu
here=$(cd "$(dirname "$0")/.." && pwd)
crate=$here/crates/nd_bench
source "$here/bench/timing.sh"
work=$(mktemp -d)
trap 'rm -rf "$work"' EXIT
(cd "$crate" && rt run -- lock-1 1) > "$work/build.log"
program=$crate/out/nd_bench
gcc -O3 -pthread -o "$work/pthread" "$here/bench/lock.c"

for entry in "${@:-1:10000000 2:1000000 4:1000000 16:200000 idle:100000}"; do
    for one in $entry; do
        threads=${one%%:*}
        count=${one##*:}
        rm -f "$work"/*.times
        for _ in 1 2 3 4 5 6 7; do
            nanoseconds "$program" "lock-$threads" "$count" >> "$work/lock.times"
            nanoseconds "$program" "mutex-$threads" "$count" >> "$work/mutex.times"
            nanoseconds "$work/pthread" "lock-$threads" "$count" >> "$work/pthread.times"
        done
        awk -v t="$threads" -v n="$count" -v a="$(median < "$work/lock.times")" -v b="$(median < "$work/mutex.times")" \
            -v c="$(median < "$work/pthread.times")" 'BEGIN {
                printf "%s, %d calls: turn lock %.0f ns, std Mutex %.0f ns, pthread %.0f ns, ratios %.2f and %.2f\n",
                    t, n, a / n, b / n, c / n, a / b, a / c }'
    done
done
