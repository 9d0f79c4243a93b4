#!/usr/bin/env bash
# Times `nd_replay` over 16,384, 32,768 and 65,536 frames of 4 x 4 bytes, by wall clock, three times each: `plain` and `run` of a file, of a window
# whose ring is full, of a pool that refuses some frames, and of statistics in four threads that a sort list puts in order. Prints the medians with
# their growth. It is no part of the gate.
set -eu
source "$(dirname "$0")/program.sh"
cd "$work"
node() { printf '[[node]]\nname = "%s"\nkind = "%s"\ninput = "driver"\nqueue = 64\n' "$1" "$2"; }
{ printf '[run]\nfeed = "wait"\n'; node cap file; printf 'mode = "stream"\ncount = 65536\n'; } > file.toml
{ printf '[run]\nfeed = "wait"\n'; node ring circular; printf 'trigger = "0"\npre = 4096\n'; } > window.toml
{ printf '[run]\npool = 16384\n'; node ring circular; printf 'trigger = "0"\npre = 4096\n'; } > pool.toml
{ printf '[run]\nfeed = "wait"\n'; node st stats; printf 'threads = 4\nsort = 64\nsort_time = 1000000\n'; } > sort.toml

measure() { for _ in 1 2 3; do nanoseconds "$program" "$@"; done | median; }
for words in "plain file" "run file" "run window" "run pool" "run sort"; do
    read -r command graph <<< "$words"
    for frames in 16384 32768 65536; do
        make_stack "$frames" 4
        measure "$command" "$graph.toml" stack.nc out_
    done | awk -v words="$words" 'NR == 1 { first = $1 } { printf "%s%.2f", NR == 1 ? words ": growth " : " : ", $1 / first }
        END { printf ", %.0f ns a frame\n", $1 / 65536 }'
done
