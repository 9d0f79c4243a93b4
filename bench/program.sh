# What the scripts beside this one run the program with: they read it by `source`. It builds the program where it isn't built,
# and makes a folder to work in, which goes when the script ends.
here=$(cd "$(dirname "${BASH_SOURCE[0]}")/.." && pwd)
source "$here/bench/timing.sh"
work=$(mktemp -d)
trap 'rm -rf "$work"' EXIT
"$here/nd_replay" --build
program=$here/crates/replay_main/out/replay_main

# Has the program make the file stack.nc, or another one: so many frames of 1,024 by 1,024 unsigned bytes, or of another side or type.
# make_stack FRAMES [SIDE [TYPE [NAME [START]]]]
make_stack() { "$program" gen "$1" "${2:-1024}" "${2:-1024}" "${3:-UInt8}" "${5:-1}" "${4:-stack.nc}"; }

# Prints how the wall clock of a command over the file stack.nc grows with the frames of 1,024 by 1,024, medians of three: growth FRAMES COMMAND..
growth() {
    local frames=$1 times
    shift
    for times in 1 2 4; do
        make_stack $((times * frames))
        for _ in 1 2 3; do nanoseconds "$@"; done | median
    done | awk 'NR == 1 { first = $1 } { printf "%s%.2f", NR == 1 ? "growth " : " : ", $1 / first } END { print "" }'
}
