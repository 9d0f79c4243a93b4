/* The workload `region` of nd_bench as a plain program, line by line in narrow types: the region of an array that nd_roi cuts.
   Usage: region region TYPE BINS REVERSE SCALE OUT SIZES COUNT. An array has at most 3 dimensions; dimension 0 is reversed where
   REVERSE is 1. Sums of 8 and 16 bits fit 32, so a bin covers at most 32,767 samples. */
#include <stdint.h>
#include <stdio.h>
#include <stdlib.h>
#include <string.h>

#include "given.h"

struct region {
    uint32_t bins[3], sizes[3], strides[3];
    int reverse;
    uint32_t scale;
    enum type out_type;
    uint8_t *out;
    size_t length;
};

static uint8_t byte(uint8_t v) { return v; }

/* Writes a line of sums, what is left of each in the bits of the type, the most significant byte first. */
#define WRITE(name, sum, bits, swap)                                                                                                    \
    static void write_##name(uint8_t *restrict out, const sum *restrict sums, uint32_t n) {                                             \
        for (uint32_t x = 0; x < n; x++) {                                                                                              \
            bits one = swap((bits)sums[x]);                                                                                             \
            memcpy(out + x * sizeof one, &one, sizeof one);                                                                             \
        }                                                                                                                               \
    }
WRITE(narrow_8, int32_t, uint8_t, byte)
WRITE(narrow_16, int32_t, uint16_t, __builtin_bswap16)
WRITE(narrow_32, int32_t, uint32_t, __builtin_bswap32)
WRITE(wide_8, int64_t, uint8_t, byte)
WRITE(wide_16, int64_t, uint16_t, __builtin_bswap16)
WRITE(wide_32, int64_t, uint32_t, __builtin_bswap32)

/* The region of an array of one type. */
#define REGION(name, sample, bits, swap, sum, kind)                                                                                     \
    static void take_##name(sample *restrict v, const uint8_t *restrict bytes, uint32_t n) {                                            \
        for (uint32_t x = 0; x < n; x++) {                                                                                              \
            bits one;                                                                                                                   \
            memcpy(&one, bytes + x * sizeof one, sizeof one);                                                                           \
            v[x] = (sample)swap(one);                                                                                                   \
        }                                                                                                                               \
    }                                                                                                                                   \
    static inline __attribute__((always_inline)) void add_by_##name(sum *restrict sums, const sample *restrict v, uint32_t n, uint32_t bin) {\
        for (uint32_t x = 0; x < n; x++) {                                                                                              \
            sum one = 0;                                                                                                                \
            for (uint32_t i = 0; i < bin; i++) one += v[bin * x + i];                                                                   \
            sums[x] += one;                                                                                                             \
        }                                                                                                                               \
    }                                                                                                                                   \
    static void add_##name(sum *restrict sums, const sample *restrict v, uint32_t n, uint32_t bin) {                                    \
        switch (bin) {                                                                                                                  \
        case 1: add_by_##name(sums, v, n, 1); break;                                                                                    \
        case 2: add_by_##name(sums, v, n, 2); break;                                                                                    \
        case 3: add_by_##name(sums, v, n, 3); break;                                                                                    \
        case 4: add_by_##name(sums, v, n, 4); break;                                                                                    \
        case 8: add_by_##name(sums, v, n, 8); break;                                                                                    \
        default: add_by_##name(sums, v, n, bin);                                                                                        \
        }                                                                                                                               \
    }                                                                                                                                   \
    __attribute__((noinline)) static void cut_##name(const struct given *g, struct region *r) {                                         \
        static sum *sums;                                                                                                               \
        static sample *v;                                                                                                               \
        uint32_t n = r->sizes[0], wide = 1 << r->out_type / 2;                                                                          \
        if (!sums) sums = malloc(n * sizeof *sums), v = malloc(g->width * sizeof *v);                                                   \
        uint8_t *out = r->out;                                                                                                          \
        int copies = r->bins[0] == 1 && r->bins[1] == 1 && r->bins[2] == 1 && !r->reverse && r->scale == 1 && r->out_type == g->type;   \
        for (uint32_t z = 0; z < r->sizes[2]; z++)                                                                                      \
            for (uint32_t y = 0; y < r->sizes[1]; y++, out += n * wide) {                                                               \
                if (copies) {                                                                                                           \
                    memcpy(out, g->bytes + ((size_t)z * r->strides[2] + (size_t)y * r->strides[1]) * sizeof(sample), n * sizeof(sample));\
                    continue;                                                                                                           \
                }                                                                                                                       \
                memset(sums, 0, n * sizeof *sums);                                                                                      \
                for (uint32_t k = 0; k < r->bins[2]; k++)                                                                               \
                    for (uint32_t j = 0; j < r->bins[1]; j++) {                                                                         \
                        size_t place = (size_t)(z * r->bins[2] + k) * r->strides[2] + (size_t)(y * r->bins[1] + j) * r->strides[1];     \
                        take_##name(v, g->bytes + place * sizeof(sample), n * r->bins[0]);                                              \
                        add_##name(sums, v, n, r->bins[0]);                                                                             \
                    }                                                                                                                   \
                if (r->scale != 1)                                                                                                      \
                    for (uint32_t x = 0; x < n; x++) sums[x] /= (sum)r->scale;                                                          \
                if (r->reverse)                                                                                                         \
                    for (uint32_t x = 0; x < n / 2; x++) {                                                                              \
                        sum one = sums[x];                                                                                              \
                        sums[x] = sums[n - 1 - x], sums[n - 1 - x] = one;                                                               \
                    }                                                                                                                   \
                if (wide == 1) write_##kind##_8(out, sums, n);                                                                          \
                else if (wide == 2) write_##kind##_16(out, sums, n);                                                                    \
                else write_##kind##_32(out, sums, n);                                                                                   \
            }                                                                                                                           \
    }
REGION(Int8, int8_t, uint8_t, byte, int32_t, narrow)
REGION(UInt8, uint8_t, uint8_t, byte, int32_t, narrow)
REGION(Int16, int16_t, uint16_t, __builtin_bswap16, int32_t, narrow)
REGION(UInt16, uint16_t, uint16_t, __builtin_bswap16, int32_t, narrow)
REGION(Int32, int32_t, uint32_t, __builtin_bswap32, int64_t, wide)
REGION(UInt32, uint32_t, uint32_t, __builtin_bswap32, int64_t, wide)

int main(int argc, char **argv) {
    if (argc != 9) return 1;
    struct given g = given(argv[2], 32, argv[7]);
    struct region r = {.reverse = !strcmp(argv[4], "1"), .scale = strtoul(argv[5], 0, 10)};
    r.out_type = strcmp(argv[6], "same") ? type_of(argv[6]) : g.type;
    r.length = bytes_of(r.out_type);
    const char *word = argv[3];
    uint32_t stride = 1;
    for (int k = 0; k < 3; k++) {
        char *end = (char *)word;
        uint32_t size = k < g.rank ? g.sizes[k] : 1, bin = *word ? strtoul(word, &end, 10) : 1;
        word = *end ? end + 1 : end;
        r.bins[k] = bin < size ? bin : size;
        r.sizes[k] = size / r.bins[k];
        r.strides[k] = stride;
        stride *= size;
        r.length *= r.sizes[k];
    }
    r.out = malloc(r.length);
    uint32_t count = strtoul(argv[8], 0, 10);
    for (uint32_t i = 0; i < count; i++) {
        switch (g.type) {
        case INT8: cut_Int8(&g, &r); break;
        case UINT8: cut_UInt8(&g, &r); break;
        case INT16: cut_Int16(&g, &r); break;
        case UINT16: cut_UInt16(&g, &r); break;
        case INT32: cut_Int32(&g, &r); break;
        default: cut_UInt32(&g, &r);
        }
        __asm__ volatile("" ::: "memory");
    }
    uint64_t sum = 0;
    for (size_t i = 0; i < r.length; i++) sum = sum * 31 + r.out[i];
    for (int i = 1; i < argc; i++) printf("%s ", argv[i]);
    printf("%llu\n", (unsigned long long)sum);
}
