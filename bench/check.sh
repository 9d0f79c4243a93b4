#!/usr/bin/env bash
# Times `nd_replay check` over the log and the files of runs of 16,384, 32,768 and 65,536 frames of 4 x 4 bytes, by wall clock, three times each: of one
# file, of statistics in four threads that a sort list puts in order, and of 16 files, whose log over 65,536 frames is the longest that there may be.
# Prints the growth of the medians, and the time for each entry of the longest log. It is no part of the gate.
set -eu
source "$(dirname "$0")/program.sh"
cd "$work"
node() { printf '[[node]]\nname = "%s"\nkind = "%s"\ninput = "driver"\nqueue = 64\n' "$1" "$2"; }
files() {
    printf '[run]\nfeed = "wait"\n'
    for ((number = 1; number <= $1; number++)); do node "cap$number" file; printf 'mode = "stream"\ncount = 65536\n'; done
}
files 1 > file.toml
files 16 > files.toml
{ printf '[run]\nfeed = "wait"\n'; node st stats; printf 'threads = 4\nsort = 64\nsort_time = 1000000\n'; } > sort.toml

measure() { for _ in 1 2 3; do nanoseconds "$program" "$@"; done | median; }
for graph in file sort files; do
    for frames in 16384 32768 65536; do
        make_stack "$frames" 4
        "$program" run-log "$graph.toml" stack.nc out_ > /dev/null
        printf '%s %s\n' "$(measure check "$graph.toml" stack.nc out_log.txt out_)" "$(wc -l < out_log.txt)"
    done | awk -v graph="$graph" 'NR == 1 { first = $1 } { printf "%s%.2f", NR == 1 ? graph ": growth " : " : ", $1 / first; time = $1; entries = $2 }
        END { printf ", %.0f ns an entry of %d\n", time / entries, entries }'
    rm -f out_*
done
