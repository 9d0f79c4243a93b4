/* The numbers of an array that nd_stats measures, line by line in narrow types: what stats.c and plain.c compute with. An array has at most
   65,536 lines, so that the sums of a column of 16 bits fit 32. */
#include <stdint.h>
#include <stdio.h>
#include <stdlib.h>
#include <string.h>

#include "given.h"

/* How many samples of a line are taken at a time. */
enum { PART = 4096 };

struct rule {
    int64_t threshold, low, high;
    uint32_t border, bins;
    int profiles;
};

struct measure {
    uint32_t n, min_at, max_at, border_n, over, below, above;
    int64_t min, max, total, border, m0;
    unsigned __int128 squares;
    __int128 mx, my;
    int64_t *bins, *x, *y;
};

/* Whether a line is one of the first or last `border` of a dimension from dimension 1 on. */
static int near_end(const struct given *g, uint32_t border, uint32_t line) {
    for (int k = 1; k < g->rank; k++) {
        uint32_t index = line % g->sizes[k];
        if (index < border || index + border >= g->sizes[k]) return 1;
        line /= g->sizes[k];
    }
    return 0;
}

/* The bin of a value: `bins` below the range, `bins` + 1 above it. */
static uint32_t bin_of(const struct rule *r, int64_t value) {
    if (value < r->low) return r->bins;
    if (value > r->high) return r->bins + 1;
    uint64_t range = (uint64_t)(r->high - r->low);
    return (uint32_t)((2 * (uint64_t)(value - r->low) * (r->bins - 1) + range) / (2 * range));
}

static int64_t lesser(int64_t a, int64_t b) { return a < b ? a : b; }

static uint8_t byte(uint8_t v) { return v; }

/* The numbers of an array of one type. Narrow samples are summed in 32 bits along a part of a line and along a column, those of
   32 bits in 64; `how` adds up the squares of a part; `first` and `last` are the ends of the type. */
#define MEASURE(name, type, bits, swap, column, how, first, last)                                                           \
    static void take_##name(type *restrict v, const uint8_t *restrict bytes, uint32_t n) {                                  \
        for (uint32_t x = 0; x < n; x++) {                                                                                  \
            bits one;                                                                                                       \
            memcpy(&one, bytes + x * sizeof one, sizeof one);                                                               \
            v[x] = (type)swap(one);                                                                                         \
        }                                                                                                                   \
    }                                                                                                                       \
    static type least_##name(const type *restrict v, uint32_t n) {                                                          \
        type low = v[0];                                                                                                    \
        for (uint32_t x = 0; x < n; x++) low = v[x] < low ? v[x] : low;                                                     \
        return low;                                                                                                         \
    }                                                                                                                       \
    static type most_##name(const type *restrict v, uint32_t n) {                                                           \
        type high = v[0];                                                                                                   \
        for (uint32_t x = 0; x < n; x++) high = v[x] > high ? v[x] : high;                                                  \
        return high;                                                                                                        \
    }                                                                                                                       \
    static column sum_##name(const type *restrict v, uint32_t n) {                                                          \
        column sum = 0;                                                                                                     \
        for (uint32_t x = 0; x < n; x++) sum += v[x];                                                                       \
        return sum;                                                                                                         \
    }                                                                                                                       \
    static unsigned __int128 squares_##name(const type *restrict v, uint32_t n) { how }                                     \
    static uint32_t count_##name(const type *restrict v, type least, uint32_t n) {                                          \
        uint32_t over = 0;                                                                                                  \
        for (uint32_t x = 0; x < n; x++) over += v[x] >= least;                                                             \
        return over;                                                                                                        \
    }                                                                                                                       \
    static void keep_##name(type *kept, const type *v, type least, uint32_t n) {                          \
        for (uint32_t x = 0; x < n; x++) kept[x] = v[x] >= least ? v[x] : 0;                                                \
    }                                                                                                                       \
    static void add_##name(column *restrict to, const type *restrict v, uint32_t n) {                                       \
        for (uint32_t x = 0; x < n; x++) to[x] += v[x];                                                                     \
    }                                                                                                                       \
    __attribute__((noinline)) static void measure_##name(struct measure *m, const struct rule *r, const struct given *g) {  \
        static _Thread_local column *columns, *reached;                                                                     \
        static _Thread_local uint32_t (*counts)[4];                                                                         \
        static _Thread_local uint16_t *table;                                                                               \
        size_t wide = g->width * sizeof(column);                                                                            \
        int has_table = r->bins && sizeof(type) < 4;                                                                        \
        if (!columns) columns = malloc(wide), reached = malloc(wide), counts = malloc((r->bins + 2) * sizeof *counts);      \
        if (has_table && !table) {                                                                                          \
            table = malloc(65536 * sizeof *table);                                                                          \
            for (int64_t v = first; v <= last; v++) table[v - (first)] = (uint16_t)bin_of(r, v);                            \
        }                                                                                                                   \
        memset(columns, 0, wide), memset(reached, 0, wide), memset(counts, 0, (r->bins + 2) * sizeof *counts);              \
        /* a threshold beyond the type reaches every sample or none */                                                      \
        int all = r->threshold <= (first), none = r->threshold > (last);                                                    \
        type least = none || all ? 0 : (type)r->threshold;                                                                  \
        m->min = INT64_MAX, m->max = INT64_MIN, m->n = g->samples;                                                          \
        for (uint32_t line = 0; line < g->samples / g->width; line++) {                                                     \
            int edge = r->border && near_end(g, r->border, line);                                                           \
            uint32_t y = line % g->height;                                                                                  \
            for (uint32_t from = 0; from < g->width; from += PART) {                                                        \
                uint32_t n = g->width - from < PART ? g->width - from : PART;                                               \
                uint32_t place = line * g->width + from;                                                                    \
                type v[PART];                                                                                               \
                take_##name(v, g->bytes + (size_t)place * sizeof(type), n);                                                 \
                type low = least_##name(v, n), high = most_##name(v, n);                                                    \
                column sum = sum_##name(v, n), kept = sum;                                                                  \
                m->squares += squares_##name(v, n);                                                                         \
                m->total += sum;                                                                                            \
                if (low < m->min)                                                                                           \
                    for (uint32_t x = 0; m->min != low; x++)                                                                \
                        if (v[x] == low) m->min = low, m->min_at = place + x;                                               \
                if (high > m->max)                                                                                          \
                    for (uint32_t x = 0; m->max != high; x++)                                                               \
                        if (v[x] == high) m->max = high, m->max_at = place + x;                                             \
                if (edge) {                                                                                                 \
                    m->border += sum, m->border_n += n;                                                                     \
                } else if (r->border) {                                                                                     \
                    int64_t head = lesser(g->width, r->border), tail = g->width - head > head ? g->width - head : head;     \
                    for (int64_t x = from; x < lesser(head, from + n); x++) m->border += v[x - from], m->border_n++;        \
                    for (int64_t x = tail > from ? tail : from; x < from + n; x++) m->border += v[x - from], m->border_n++; \
                }                                                                                                           \
                if (has_table) {                                                                                            \
                    uint32_t x = 0;                                                                                         \
                    for (; x + 4 <= n; x += 4)                                                                              \
                        for (int j = 0; j < 4; j++) counts[table[v[x + j] - (first)]][j]++;                                 \
                    for (; x < n; x++) counts[table[v[x] - (first)]][0]++;                                                  \
                } else if (r->bins)                                                                                         \
                    for (uint32_t x = 0; x < n; x++) counts[bin_of(r, v[x])][x % 4]++;                                      \
                if (r->profiles) m->y[y] += sum, add_##name(columns + from, v, n);                                          \
                if (none) continue;                                                                                         \
                if (all) {                                                                                                  \
                    m->over += n;                                                                                           \
                } else {                                                                                                    \
                    m->over += count_##name(v, least, n);                                                                   \
                    keep_##name(v, v, least, n);                                                                            \
                    kept = sum_##name(v, n);                                                                                \
                }                                                                                                           \
                m->m0 += kept, m->my += (__int128)y * kept;                                                                 \
                add_##name(reached + from, v, n);                                                                           \
            }                                                                                                               \
        }                                                                                                                   \
        for (uint32_t x = 0; x < g->width; x++) {                                                                           \
            m->mx += (__int128)x * reached[x];                                                                              \
            if (r->profiles) m->x[x] = columns[x];                                                                          \
        }                                                                                                                   \
        for (uint32_t b = 0; b < r->bins; b++)                                                                              \
            for (int j = 0; j < 4; j++) m->bins[b] += counts[b][j];                                                         \
        for (int j = 0; r->bins && j < 4; j++) m->below += counts[r->bins][j], m->above += counts[r->bins + 1][j];          \
    }

#define NARROW                                                                                                              \
    uint64_t sum = 0;                                                                                                       \
    for (uint32_t x = 0; x < n; x++) {                                                                                      \
        uint32_t size = (uint32_t)(v[x] < 0 ? -v[x] : v[x]);                                                                \
        sum += size * size;                                                                                                 \
    }                                                                                                                       \
    return sum;
#define WIDE                                                                                                                \
    uint64_t low = 0, high = 0;                                                                                             \
    for (uint32_t x = 0; x < n; x++) {                                                                                      \
        int64_t one = v[x];                                                                                                 \
        uint64_t square = (uint64_t)one * (uint64_t)one;                                                                    \
        low += (uint32_t)square;                                                                                            \
        high += square >> 32;                                                                                               \
    }                                                                                                                       \
    return low + ((unsigned __int128)high << 32);
