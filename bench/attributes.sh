#!/usr/bin/env bash
# Has ncgen of netcdf-bin write a stack of 65,536 frames of 2 by 2 bytes with 40 attributes of type int, and prints the most memory
# that `nd_replay info` takes for it, as a multiple of the file. Then the same for a stack of 64 frames whose 1,200 attributes are
# texts of 65,536 bytes that share their place in the file: 4.7 GiB of texts in 4 MiB, which `info` refuses. It is no part of the gate.
set -eu
source "$(dirname "$0")/program.sh"
command -v ncgen > /dev/null || { echo "attributes.sh: ncgen is missing; it is in the package netcdf-bin" >&2; exit 1; }

frames=65536
attributes=40
cd "$work"
{
    echo "netcdf heads { dimensions: frame = UNLIMITED; y = 2; x = 2;"
    echo "variables: byte array_data(frame, y, x);"
    for a in $(seq $attributes); do echo "int Attr_A$a(frame);"; done
    echo "data: array_data ="
    awk -v n=$((4 * frames)) 'BEGIN { for (k = 1; k <= n; k++) printf "%d%s", k % 100, k < n ? "," : ";\n" }'
    for a in $(seq $attributes); do
        awk -v a="$a" -v n=$frames 'BEGIN { printf "Attr_A%d = ", a; for (k = 1; k <= n; k++) printf "%d%s", k * a, k < n ? "," : ";\n" }'
    done
    echo "}"
} > heads.cdl
ncgen -o heads.nc heads.cdl
/usr/bin/time -f %M -o peak "$program" info heads.nc > print
grep -c "^attr A" print
awk -v peak="$(cat peak)" -v size="$(stat -c %s heads.nc)" \
    'BEGIN { printf "memory %.1f MiB, file %.1f MiB, ratio %.2f\n", peak / 1024, size / 1048576, peak * 1024 / size }'

python3 - > texts.nc << 'END'
import struct, sys
frames, width, attributes = 64, 65536, 1200
word = lambda n: struct.pack(">i", n)
name = lambda text: word(len(text)) + text.encode() + bytes(-len(text) % 4)
def var(text, dims, kind, size, begin):
    return name(text) + word(len(dims)) + b"".join(map(word, dims)) + word(0) * 2 + word(kind) + word(size) + word(begin)
def header(begin):
    dims = word(10) + word(4) + name("frame") + word(frames) + name("y") + word(2) + name("x") + word(2) + name("text") + word(width)
    texts = [var(f"Attr_T{k}", [0, 3], 2, frames * width, begin + 4 * frames) for k in range(attributes)]
    return b"CDF\1" + word(0) + dims + word(0) * 2 + word(11) + word(1 + attributes) + var("array_data", [0, 1, 2], 1, 4 * frames, begin) + b"".join(texts)
begin = len(header(0))
sys.stdout.buffer.write(header(begin) + bytes(4 * frames) + b"a" * (frames * width))
END
status=0
/usr/bin/time -f %M -o peak "$program" info texts.nc > print 2> error || status=$?
awk -v status="$status" -v peak="$(tail -n 1 peak)" -v size="$(stat -c %s texts.nc)" \
    'BEGIN { printf "status %d, memory %.1f MiB, file %.1f MiB\n", status, peak / 1024, size / 1048576 }'
