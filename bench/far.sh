#!/usr/bin/env bash
# Makes a sparse CDF-2 file of one record whose begin lies past 2^32, and asks `nd_replay info` of it. The whole file is too long for a stack. Its
# front alone has no values, though it has bytes at that place less 2^32, where a begin read as four bytes would find them. With no record the
# front is a stack of no frames. Where ncdump of netcdf-bin is there, it has to read the four samples. It is no part of the gate.
set -eu
source "$(dirname "$0")/program.sh"
cd "$work"

# A number as the four bytes of a word, spelled for printf.
word() { printf '\\x%02x' $(($1 >> 24 & 255)) $(($1 >> 16 & 255)) $(($1 >> 8 & 255)) $(($1 & 255)); }

# The header of so many records of four bytes, which begin 1,024 bytes past 2^32, and zeros up to place 2,048.
front() {
    printf 'CDF\002%b\0\0\0\012\0\0\0\002\0\0\0\001n\0\0\0\0\0\0\0\0\0\0\001x\0\0\0\0\0\0\004' "$(word "$1")"
    printf '\0\0\0\0\0\0\0\0\0\0\0\013\0\0\0\001\0\0\0\012array_data\0\0\0\0\0\002\0\0\0\0\0\0\0\001'
    printf '\0\0\0\0\0\0\0\0\0\0\0\001\0\0\0\004\0\0\0\001\0\0\004\0'
    head -c 2048 /dev/zero
}

# What `info` says of a file.
asked() { "$program" info "$1" 2>&1 || true; }

front 1 | head -c 2048 > short.nc
front 0 | head -c 2048 > none.nc
cp short.nc far.nc
printf '\001\002\003\004' | dd of=far.nc bs=1 seek=$(((1 << 32) + 1024)) conv=notrunc status=none
[ "$(asked far.nc)" = "nd_replay: status 5 Limit StackFile 4294968324" ]
[ "$(asked short.nc)" = "nd_replay: status 4 StackBytes Cdf DataShort 0" ]
[ "$(asked none.nc)" = "$(printf 'kind Int8\ndims 4\nframes 0')" ]
if command -v ncdump > /dev/null; then
    ncdump -v array_data far.nc | grep -q '1, 2, 3, 4'
    echo "ncdump reads the far values, and nd_replay refuses them by their true place"
else
    echo "nd_replay refuses the far values by their true place"
fi
