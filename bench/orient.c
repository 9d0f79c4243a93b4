/* What `nd_replay orient` and `nd_replay correct` do with a stack of `nd_replay gen`, as a plain program that keeps the whole file in memory,
   too: each frame is turned into a buffer, block by block where its lines become columns, or corrected by 64-bit arithmetic.
   Usage: orient MODE STACK NAME, or correct DARK STACK NAME OFFSET NUM DEN LOW HIGH. A stack is laid out as `gen` writes it, and may have other
   attributes; DARK has the type and the sizes of STACK. */
#include <stddef.h>

#include "layout.h"

#include "given.h"

/* How many samples a side of a block has. */
enum { BLOCK = 32 };

/* The places of numbers in the header. */
enum { FRAMES = 4, DIM0 = 44, DIM1 = 56, TYPE = 112, SIZE = 204, OFFSET = 236, BINNING = 268, REVERSE = 300, FIRST_ROW = 352 };

/* A stack in memory. */
struct stack {
    uint8_t *bytes;
    enum type type;
    uint32_t frames, width, height, header;
    size_t row, samples;
};

static uint32_t word_at(const uint8_t *bytes) {
    uint32_t word;
    memcpy(&word, bytes, sizeof word);
    return __builtin_bswap32(word);
}

static struct stack stack_of(const char *path) {
    size_t size;
    uint8_t *bytes = whole(path, &size);
    struct stack s = {.bytes = bytes, .type = (enum type)word_at(bytes + TYPE), .frames = word_at(bytes + FRAMES)};
    s.width = word_at(bytes + SIZE);
    s.height = word_at(bytes + SIZE + 4);
    s.header = word_at(bytes + FIRST_ROW);
    s.row = (size - s.header) / s.frames;
    s.samples = (size_t)s.width * s.height;
    return s;
}

static const uint8_t *samples_of(const struct stack *s, uint32_t k) { return s->bytes + s->header + k * s->row + BEFORE; }

/* --- orientation */

/* What a mode does: whether dimensions 0 and 1 change places, and which of the output's run down the input's. */
struct turn {
    int swaps, x_down, y_down;
};

static const struct turn turns[] = {{0, 0, 0}, {1, 1, 0}, {0, 1, 1}, {1, 0, 1}, {0, 1, 0}, {1, 0, 0}, {0, 0, 1}, {1, 1, 1}};

static uint32_t least_of(uint32_t a, uint32_t b) { return a < b ? a : b; }

/* Turns a frame of w by h samples of so many bits, whatever they mean. */
#define TURN(name, bits)                                                                                                                            \
    static void lines_##name(const struct turn *t, uint32_t w, uint32_t h, const bits *restrict in, bits *restrict out) {                           \
        for (uint32_t y = 0; y < h; y++, out += w) {                                                                                                \
            const bits *line = in + (size_t)(t->y_down ? h - 1 - y : y) * w;                                                                        \
            if (!t->x_down) memcpy(out, line, w * sizeof *out);                                                                                     \
            else                                                                                                                                    \
                for (uint32_t x = 0; x < w; x++) out[x] = line[w - 1 - x];                                                                          \
        }                                                                                                                                           \
    }                                                                                                                                               \
    static void block_##name(const struct turn *t, uint32_t w, uint32_t h, const bits *restrict in, bits *restrict out, uint32_t x0, uint32_t y0) { \
        uint32_t columns = least_of(BLOCK, h - x0), lines = least_of(BLOCK, w - y0);                                                                \
        ptrdiff_t step = t->x_down ? -(ptrdiff_t)w : (ptrdiff_t)w;                                                                                  \
        for (uint32_t y = y0; y < y0 + lines; y++) {                                                                                                \
            const bits *from = in + (size_t)(t->x_down ? h - 1 - x0 : x0) * w + (t->y_down ? w - 1 - y : y);                                        \
            bits *to = out + (size_t)y * h + x0;                                                                                                    \
            for (uint32_t x = 0; x < columns; x++) to[x] = from[x * step];                                                                          \
        }                                                                                                                                           \
    }                                                                                                                                               \
    static void turn_##name(const struct turn *t, uint32_t w, uint32_t h, const bits *in, bits *out) {                                              \
        if (!t->swaps) return lines_##name(t, w, h, in, out);                                                                                       \
        for (uint32_t y = 0; y < w; y += BLOCK)                                                                                                     \
            for (uint32_t x = 0; x < h; x += BLOCK) block_##name(t, w, h, in, out, x, y);                                                           \
    }
TURN(bytes, uint8_t)
TURN(pairs, uint16_t)
TURN(words, uint32_t)

static void turn(const struct turn *t, const struct stack *s, const uint8_t *in, void *out) {
    switch (bytes_of(s->type)) {
    case 1: turn_bytes(t, s->width, s->height, in, out); break;
    case 2: turn_pairs(t, s->width, s->height, (const uint16_t *)in, out); break;
    default: turn_words(t, s->width, s->height, (const uint32_t *)in, out);
    }
}

static void swap_words(uint8_t *a, uint8_t *b) {
    uint32_t one;
    memcpy(&one, a, sizeof one);
    memcpy(a, b, sizeof one);
    memcpy(b, &one, sizeof one);
}

/* Makes the header that of the turned stack, which has the same names and so the same length. */
static void turn_header(const struct turn *t, uint8_t *header) {
    static const int pairs[] = {SIZE, OFFSET, BINNING, REVERSE};
    for (int i = 0; t->swaps && i < 4; i++) swap_words(header + pairs[i], header + pairs[i] + 4);
    if (t->swaps) swap_words(header + DIM0, header + DIM1);
    header[REVERSE + 3] ^= (uint8_t)t->x_down;
    header[REVERSE + 7] ^= (uint8_t)t->y_down;
}

/* --- correction */

struct rule {
    int64_t offset, num, den, low, high;
};

static uint8_t byte(uint8_t v) { return v; }

/* Corrects the samples of one type. A difference of 33 bits times num fits 64, and so does the quotient with offset. */
#define CORRECT(name, sample, bits, swap)                                                                                                               \
    static void correct_##name(const struct rule *r, size_t samples, const uint8_t *restrict dark, const uint8_t *restrict in, uint8_t *restrict out) { \
        for (size_t i = 0; i < samples; i++) {                                                                                                          \
            bits v, d;                                                                                                                                  \
            memcpy(&v, in + i * sizeof v, sizeof v);                                                                                                    \
            memcpy(&d, dark + i * sizeof d, sizeof d);                                                                                                  \
            int64_t one = ((int64_t)(sample)swap(v) - (int64_t)(sample)swap(d)) * r->num / r->den + r->offset;                                          \
            one = one > r->high ? r->high : one;                                                                                                        \
            one = one < r->low ? r->low : one;                                                                                                          \
            v = swap((bits)one);                                                                                                                        \
            memcpy(out + i * sizeof v, &v, sizeof v);                                                                                                   \
        }                                                                                                                                               \
    }
CORRECT(Int8, int8_t, uint8_t, byte)
CORRECT(UInt8, uint8_t, uint8_t, byte)
CORRECT(Int16, int16_t, uint16_t, __builtin_bswap16)
CORRECT(UInt16, uint16_t, uint16_t, __builtin_bswap16)
CORRECT(Int32, int32_t, uint32_t, __builtin_bswap32)
CORRECT(UInt32, uint32_t, uint32_t, __builtin_bswap32)

static void correct(const struct rule *r, const struct stack *s, const uint8_t *dark, const uint8_t *in, uint8_t *out) {
    switch (s->type) {
    case INT8: correct_Int8(r, s->samples, dark, in, out); break;
    case UINT8: correct_UInt8(r, s->samples, dark, in, out); break;
    case INT16: correct_Int16(r, s->samples, dark, in, out); break;
    case UINT16: correct_UInt16(r, s->samples, dark, in, out); break;
    case INT32: correct_Int32(r, s->samples, dark, in, out); break;
    default: correct_UInt32(r, s->samples, dark, in, out);
    }
}

static int64_t in_type(enum type type, int64_t number) {
    int bits = 8 * bytes_of(type), is_signed = type % 2 == 0;
    int64_t least = is_signed ? -((int64_t)1 << (bits - 1)) : 0, greatest = ((int64_t)1 << (bits - is_signed)) - 1;
    return number < least ? least : number > greatest ? greatest : number;
}

static struct rule rule_of(enum type type, char **words) {
    int64_t numbers[5];
    for (int i = 0; i < 5; i++) numbers[i] = strtoll(words[i], 0, 10);
    return (struct rule){numbers[0], numbers[1], numbers[2], in_type(type, numbers[3]), in_type(type, numbers[4])};
}

int main(int argc, char **argv) {
    int orients = argc == 5 && !strcmp(argv[1], "orient"), corrects = argc == 10 && !strcmp(argv[1], "correct");
    if (!orients && !corrects) return 1;
    struct stack s = stack_of(argv[3]), dark = corrects ? stack_of(argv[2]) : s;
    if (dark.type != s.type || dark.width != s.width || dark.height != s.height) return 1;
    struct turn t = turns[orients ? atoi(argv[2]) : 0];
    struct rule r = rule_of(s.type, corrects ? argv + 5 : (char *[]){"0", "1", "1", "0", "0"});
    size_t bytes = s.samples * bytes_of(s.type);
    uint8_t *out = malloc(bytes);
    FILE *file = fopen(argv[4], "wb");
    if (!out || !file) die("open");
    turn_header(&t, s.bytes);
    fwrite(s.bytes, 1, s.header, file);
    for (uint32_t k = 0; k < s.frames; k++) {
        const uint8_t *frame = samples_of(&s, k);
        if (orients) turn(&t, &s, frame, out);
        else correct(&r, &s, samples_of(&dark, 0), frame, out);
        fwrite(frame - BEFORE, 1, BEFORE, file);
        fwrite(out, 1, bytes, file);
        fwrite(frame + bytes, 1, s.row - BEFORE - bytes, file);
    }
    if (fclose(file)) die("close");
    printf("frames %u\n", s.frames);
}
