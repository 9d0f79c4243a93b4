#!/usr/bin/env bash
# Prints the most memory that `nd_replay run` takes beside the stack and the limit of its pool, where blocks of one, two and four bytes a sample
# are given up for one another: frames of FRAMES x SIDE x SIDE bytes go through two regions, each of which doubles the bytes of a sample, with
# a limit of LIMIT MiB, five times. It is no part of the gate.
# pool.sh [SIDE FRAMES LIMIT]
set -eu
source "$(dirname "$0")/program.sh"
side=${1:-1024} frames=${2:-300} limit=${3:-64}
cd "$work"
region() { printf '[[node]]\nname = "%s"\nkind = "roi"\ninput = "%s"\ntype = "%s"\nqueue = 65535\n' "$1" "$2" "$3"; }
{ printf '[run]\npool = %d\n' $((limit * 1048576)); region wide driver UInt16; region wider wide Int32; } > pool.toml
make_stack "$frames" "$side"
for _ in 1 2 3 4 5; do
    /usr/bin/time -f %M -o peak "$program" run-log pool.toml stack.nc out_ > report
    awk -v peak="$(cat peak)" -v size="$(stat -c %s stack.nc)" -v limit="$limit" \
        -v given="$(awk '{ for (i = 1; i < NF; i++) if ($i == "given") all += $(i + 1) } END { print all + 0 }' out_log.txt)" \
        'BEGIN { printf "%d blocks given up; memory %.1f MiB, less the stack %.1f MiB; limit %d MiB\n", given, peak / 1024, peak / 1024 - size / 1048576, limit }'
done
