/* What `nd_replay series` does with a stack of `nd_replay gen`, as a plain program that keeps the whole file in memory, too: each region is read
   line by line in narrow types, in one pass. Usage: series UInt8|UInt16 LENGTH REGIONS STACK FILE. */
#include "layout.h"

#include "given.h"

#ifndef SIDE
#define SIDE 1024
#endif
enum { MOST_REGIONS = 32 };

struct region {
    uint32_t x, y, w, h;
};

struct part {
    int64_t min, max, total, border;
    uint32_t border_n;
};

struct row {
    uint32_t id;
    struct part parts[MOST_REGIONS];
};

static uint8_t byte(uint8_t v) { return v; }

/* The numbers of a region of samples of one type. The sum of a line fits 32 bits. */
#define PART(name, bits, swap, greatest)                                                             \
    static bits sample_##name(const uint8_t *bytes) {                                                \
        bits one;                                                                                    \
        memcpy(&one, bytes, sizeof one);                                                             \
        return swap(one);                                                                            \
    }                                                                                                \
    static struct part part_##name(const struct region *r, const uint8_t *restrict frame) {          \
        bits least = greatest, most = 0;                                                             \
        struct part p = {0, 0, 0, 0, 0};                                                             \
        for (uint32_t y = 0; y < r->h; y++) {                                                        \
            const uint8_t *line = frame + ((size_t)(r->y + y) * SIDE + r->x) * sizeof(bits);         \
            uint32_t total = 0;                                                                      \
            for (uint32_t x = 0; x < r->w; x++) {                                                    \
                bits v = sample_##name(line + x * sizeof v);                                         \
                least = v < least ? v : least;                                                       \
                most = v > most ? v : most;                                                          \
                total += v;                                                                          \
            }                                                                                        \
            p.total += total;                                                                        \
            if (y == 0 || y + 1 == r->h || r->w == 1) {                                              \
                p.border += total;                                                                   \
                p.border_n += r->w;                                                                  \
            } else {                                                                                 \
                p.border += sample_##name(line) + sample_##name(line + (r->w - 1) * sizeof(bits));   \
                p.border_n += 2;                                                                     \
            }                                                                                        \
        }                                                                                            \
        p.min = least, p.max = most;                                                                 \
        return p;                                                                                    \
    }
PART(bytes, uint8_t, byte, UINT8_MAX)
PART(pairs, uint16_t, __builtin_bswap16, UINT16_MAX)

/* What a region takes of a dimension: at least one index, as far as there are some. */
static void span(uint32_t *first, uint32_t *count) {
    *first = *first < SIDE ? *first : SIDE - 1;
    *count = *count ? *count : 1;
    *count = *count < SIDE - *first ? *count : SIDE - *first;
}

static uint32_t regions_of(const char *text, struct region *regions) {
    uint32_t count = 0;
    for (char *end;; text = end + 1) {
        struct region r;
        r.x = strtoul(text, &end, 10), r.y = strtoul(end + 1, &end, 10);
        r.w = strtoul(end + 1, &end, 10), r.h = strtoul(end + 1, &end, 10);
        span(&r.x, &r.w), span(&r.y, &r.h);
        regions[count++] = r;
        if (*end != ';' || count == MOST_REGIONS) return count;
    }
}

/* Writes the rows that are kept, the oldest first, and the sums of their totals. */
static void write_text(FILE *text, const struct row *rows, uint32_t length, uint32_t frames, uint32_t regions) {
    __int128 sums[MOST_REGIONS] = {0};
    for (uint32_t k = frames < length ? 0 : frames - length; k < frames; k++) {
        const struct row *row = &rows[k % length];
        fprintf(text, "%u", row->id);
        for (uint32_t i = 0; i < regions; i++) {
            const struct part *p = &row->parts[i];
            fprintf(text, " %ld/%ld/%ld/%ld/%u", (long)p->min, (long)p->max, (long)p->total, (long)p->border, p->border_n);
            sums[i] += p->total;
        }
        fputc('\n', text);
    }
    fputs("sum", text);
    for (uint32_t i = 0; i < regions; i++) fprintf(text, " %ld", (long)sums[i]);
    fputc('\n', text);
}

int main(int argc, char **argv) {
    if (argc != 6) return 1;
    enum type type = type_of(argv[1]);
    uint32_t length = (uint32_t)atoi(argv[2]);
    struct region regions[MOST_REGIONS];
    uint32_t count = regions_of(argv[3], regions);
    size_t size, frame = (size_t)SIDE * SIDE * bytes_of(type);
    uint8_t *stack = whole(argv[4], &size);
    struct row *rows = malloc(length * sizeof *rows);
    FILE *text = fopen(argv[5], "wb");
    if (!rows || !text) die("open");
    uint32_t frames = frames_of(size, frame);
    for (uint32_t k = 0; k < frames; k++) {
        const uint8_t *bytes = frame_of(stack, k, frame);
        struct row *row = &rows[k % length];
        row->id = k + 1;
        for (uint32_t i = 0; i < count; i++) row->parts[i] = type == UINT8 ? part_bytes(&regions[i], bytes) : part_pairs(&regions[i], bytes);
    }
    write_text(text, rows, length, frames, count);
    if (fclose(text)) die("close");
    printf("frames %u\n", frames);
}
