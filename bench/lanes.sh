#!/usr/bin/env bash
# Times loops of the crate lane_kernels against the same work in lanes of `std::simd` (lanes.rs), at 100, 4,096 and 1,048,576 samples or
# at so many as are named, compiled for the processors that the program is compiled for. It prints the ratios of medians of wall clock,
# lanes to loop. It is no part of the gate, and needs a nightly `rustc`. Usage: bench/lanes.sh [SAMPLES..]
set -eu
here=$(cd "$(dirname "$0")/.." && pwd)
work=$(mktemp -d)
trap 'rm -rf "$work"' EXIT
rustc +nightly --edition 2024 -C opt-level=3 -C target-cpu=x86-64-v2 -C codegen-units=1 -o "$work/lanes" "$here/bench/lanes.rs"
for samples in "${@:-100 4096 1048576}"; do
    for one in $samples; do "$work/lanes" "$one"; done
done
