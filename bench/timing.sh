# What the scripts beside this one time with: they read it by `source`.

# The nanoseconds that a command takes.
nanoseconds() {
    local start
    start=$(date +%s%N)
    "$@" > /dev/null
    echo $(($(date +%s%N) - start))
}

# The nanoseconds of processor time that a command takes, its system calls included.
processor() {
    local TIMEFORMAT='%U %S'
    { time "$@" > /dev/null; } 2>&1 | awk '{ printf "%.0f\n", ($1 + $2) * 1e9 }'
}

# The median of the numbers on standard input, one a line.
median() { sort -n | awk '{ t[NR] = $1 } END { print NR % 2 ? t[(NR + 1) / 2] : int((t[NR / 2] + t[NR / 2 + 1]) / 2) }'; }

# Times two commands in turn, ten times each, and prints both medians: alternate FOLDER COMMAND.. -- COMMAND..
# `clock=processor` before it takes processor time in place of wall clock, and `runs=7` seven times.
alternate() {
    local folder=$1 ours=() run
    shift
    while [ "$1" != -- ]; do
        ours+=("$1")
        shift
    done
    shift
    rm -f "$folder/ours.times" "$folder/theirs.times"
    for ((run = 0; run < ${runs:-10}; run++)); do
        "${clock:-nanoseconds}" "${ours[@]}" >> "$folder/ours.times"
        "${clock:-nanoseconds}" "$@" >> "$folder/theirs.times"
    done
    echo "$(median < "$folder/ours.times") $(median < "$folder/theirs.times")"
}

# Times two commands by processor time, seven times each in turn, and prints a line with both medians and their ratio:
# ratio_of LABEL FOLDER COMMAND.. -- COMMAND..
ratio_of() {
    local label=$1
    shift
    clock=processor runs=7 alternate "$@" | awk -v label="$label" '{ printf "%s: %.1f ms, C %.1f ms, ratio %.2f\n", label, $1 / 1e6, $2 / 1e6, $1 / $2 }'
}

# Prints the most memory that is resident while a command runs, beside that of a file and so many bytes more: resident FILE MORE COMMAND..
resident() {
    local size more=$2 peak
    size=$(stat -c %s "$1")
    shift 2
    peak=$({ /usr/bin/time -f %M "$@" > /dev/null; } 2>&1)
    awk -v peak="$peak" -v most="$((size + more))" 'BEGIN { printf "memory %.1f MiB, at most wanted %.1f MiB\n", peak / 1024, most / 1048576 }'
}
