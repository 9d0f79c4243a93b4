/* Reading and writing the netCDF files of the programs beside this one, which are laid out as those of `nd_replay gen`: frames of two equal
   sides, with the attribute `Frame`. */
#include <stdint.h>
#include <stdio.h>
#include <stdlib.h>
#include <string.h>

/* How many bytes a file has before its rows, and a row before and after its samples. */
enum { HEADER = 584, BEFORE = 20, AFTER = 4 };

/* The numbers of the sample types in `dataType`, and of the netCDF types that hold them. */
enum { BYTES = 1, PAIRS = 3, NC_BYTE = 1, NC_SHORT = 3 };

static void die(const char *what) {
    perror(what);
    exit(1);
}

static void word(FILE *file, uint32_t number) {
    uint8_t bytes[4] = {number >> 24, number >> 16, number >> 8, number};
    fwrite(bytes, 1, 4, file);
}

static void name(FILE *file, const char *text) {
    static const char zeros[4];
    size_t length = strlen(text);
    word(file, (uint32_t)length);
    fwrite(text, 1, length, file);
    fwrite(zeros, 1, (4 - length % 4) % 4, file);
}

static void dimension(FILE *file, const char *text, uint32_t length) {
    name(file, text);
    word(file, length);
}

static void ints(FILE *file, const char *text, uint32_t count, const uint32_t *values) {
    name(file, text);
    word(file, 4);
    word(file, count);
    for (uint32_t i = 0; i < count; i++) word(file, values[i]);
}

static void variable(FILE *file, const char *text, uint32_t rank, uint32_t kind, uint32_t size, uint32_t *place) {
    name(file, text);
    word(file, rank);
    for (uint32_t i = 0; i < rank; i++) word(file, i);
    word(file, 0);
    word(file, 0);
    word(file, kind);
    word(file, size);
    word(file, *place);
    *place += size;
}

/* The header of so many frames of side by side samples, bytes or pairs of bytes, each of which covers bin by bin of the detector's. */
static void header(FILE *file, uint32_t frames, uint32_t side, uint32_t bin, int pairs) {
    uint32_t place = HEADER;
    fwrite("CDF\1", 1, 4, file);
    word(file, frames);
    word(file, 10), word(file, 4);
    dimension(file, "numArrays", 0);
    dimension(file, "dim0", side);
    dimension(file, "dim1", side);
    dimension(file, "attrStringSize", 256);
    word(file, 12), word(file, 7);
    ints(file, "dataType", 1, (uint32_t[]){pairs ? PAIRS : BYTES});
    name(file, "NDNetCDFFileVersion");
    word(file, 6), word(file, 1), word(file, 0x40080000), word(file, 0);
    ints(file, "numArrayDims", 1, (uint32_t[]){2});
    ints(file, "dimSize", 2, (uint32_t[]){side, side});
    ints(file, "dimOffset", 2, (uint32_t[]){0, 0});
    ints(file, "dimBinning", 2, (uint32_t[]){bin, bin});
    ints(file, "dimReverse", 2, (uint32_t[]){0, 0});
    word(file, 11), word(file, 6);
    variable(file, "uniqueId", 1, 4, 4, &place);
    variable(file, "timeStamp", 1, 6, 8, &place);
    variable(file, "epicsTSSec", 1, 4, 4, &place);
    variable(file, "epicsTSNsec", 1, 4, 4, &place);
    variable(file, "array_data", 3, pairs ? NC_SHORT : NC_BYTE, (pairs ? 2 : 1) * side * side, &place);
    variable(file, "Attr_Frame", 1, 4, 4, &place);
}

/* The row of frame k: its id, no times, its samples, and its number. */
static void row(FILE *file, uint32_t k, const void *samples, size_t bytes) {
    word(file, k + 1);
    for (int i = 0; i < 4; i++) word(file, 0);
    fwrite(samples, 1, bytes, file);
    word(file, k);
}

/* How many frames of so many bytes a file has. */
static uint32_t frames_of(size_t size, size_t bytes) { return (uint32_t)((size - HEADER) / (BEFORE + bytes + AFTER)); }

/* The samples of frame k of a file in memory. */
static const uint8_t *frame_of(const uint8_t *file, uint32_t k, size_t bytes) { return file + HEADER + k * (BEFORE + bytes + AFTER) + BEFORE; }

/* A whole file in memory. */
static uint8_t *whole(const char *path, size_t *size) {
    FILE *file = fopen(path, "rb");
    if (!file) die("open");
    fseek(file, 0, SEEK_END);
    *size = (size_t)ftell(file);
    rewind(file);
    uint8_t *all = malloc(*size);
    if (!all || fread(all, 1, *size, file) != *size) die("read");
    fclose(file);
    return all;
}
