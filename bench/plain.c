/* What `nd_replay plain` and `run` do with the graphs of plain.sh and run.sh, as a plain program that keeps the whole file in memory, too:
   frames of SIDE by SIDE unsigned bytes are binned two by two into 16 bits, measured line by line in narrow types, and written to a netCDF
   file and a text. Usage: plain STACK FILE TEXT [none|all [THREADS]]: without the options of statistics or with all of them; with a number of
   threads so many compute while the first one writes. */
#include <pthread.h>

#include "layout.h"
#include "statistics.h"

#ifndef SIDE
#define SIDE 1024
#endif
enum { HALF = SIDE / 2, MOST_THREADS = 16, BINS = 256 };

static uint16_t same(uint16_t value) { return value; }

MEASURE(halves, uint16_t, uint16_t, same, uint32_t, NARROW, 0, UINT16_MAX)

/* What is computed of a frame. */
struct result {
    struct measure m;
    int64_t bins[BINS], x[HALF], y[HALF];
    uint16_t half[HALF * HALF];
};

static const uint8_t *bytes;
static uint32_t frames, batch, threads;
static struct rule rule = {0, 0, 0, 0, 0, 0};
static struct result *results[2];
static pthread_barrier_t turn;

__attribute__((noinline)) static void bin(const uint8_t *restrict in, uint16_t *restrict out) {
    for (int y = 0; y < HALF; y++)
        for (int x = 0; x < HALF; x++) {
            const uint8_t *upper = in + 2 * y * SIDE + 2 * x, *lower = upper + SIDE;
            out[y * HALF + x] = (uint16_t)(upper[0] + upper[1] + lower[0] + lower[1]);
        }
}

static void spell(uint16_t *values) {
    for (int i = 0; i < HALF * HALF; i++) values[i] = (uint16_t)(values[i] << 8 | values[i] >> 8);
}

static void compute(uint32_t k, struct result *r) {
    struct given g = {UINT16, 2, 2, {HALF, HALF}, HALF, HALF, HALF * HALF, (uint8_t *)r->half};
    r->m = (struct measure){.bins = r->bins, .x = r->x, .y = r->y};
    memset(r->bins, 0, sizeof r->bins), memset(r->x, 0, sizeof r->x), memset(r->y, 0, sizeof r->y);
    bin(frame_of(bytes, k, SIDE * SIDE), r->half);
    measure_halves(&r->m, &rule, &g);
    spell(r->half);
}

/* Numbers are spelled by hand: fprintf would take several times as long. */
static char *spelled(char *at, uint64_t number) {
    char digits[20];
    int count = 0;
    do digits[count++] = (char)('0' + number % 10);
    while (number /= 10);
    while (count) *at++ = digits[--count];
    return at;
}

static char *put(char *at, const char *text, uint64_t number) {
    while (*text) *at++ = *text++;
    return spelled(at, number);
}

static char *list(char *at, const char *text, const int64_t *numbers, uint32_t count) {
    for (uint32_t i = 0; i < count; i++) at = put(at, i ? "," : text, (uint64_t)numbers[i]);
    return at;
}

static void text_row(FILE *text, uint32_t k, const struct measure *m) {
    static char line[(2 * HALF + BINS + 32) * 21];
    char *at = spelled(line, k + 1);
    at = put(put(put(at, " n=", m->n), " min=", (uint64_t)m->min), "@", m->min_at);
    at = put(put(at, " max=", (uint64_t)m->max), "@", m->max_at);
    at = put(put(at, " total=", (uint64_t)m->total), " squares=", (uint64_t)m->squares);
    at = put(put(at, " border=", (uint64_t)m->border), "/", m->border_n);
    at = put(put(at, " over=", m->over), " m0=", (uint64_t)m->m0);
    at = put(put(at, " mx=", (uint64_t)m->mx), " my=", (uint64_t)m->my);
    if (rule.bins) at = put(list(put(at, " below=", m->below), " bins=", m->bins, rule.bins), " above=", m->above);
    if (rule.profiles) at = list(list(at, " x=", m->x, HALF), " y=", m->y, HALF);
    *at++ = '\n';
    fwrite(line, 1, (size_t)(at - line), text);
}

static void write_one(FILE *text, FILE *file, uint32_t k, const struct result *r) {
    text_row(text, k, &r->m);
    row(file, k, r->half, sizeof r->half);
}

/* Computes this thread's share of each batch, one batch ahead of the writer. */
static void *work(void *number) {
    uint32_t first = (uint32_t)(size_t)number;
    for (uint32_t begin = 0, turns = 0; begin < frames; begin += batch, turns++) {
        for (uint32_t k = begin + first; k < frames && k < begin + batch; k += threads) compute(k, &results[turns % 2][k - begin]);
        pthread_barrier_wait(&turn);
    }
    return NULL;
}

static void write_batches(FILE *text, FILE *file) {
    pthread_t ids[MOST_THREADS];
    batch = (4u << 20) / sizeof(struct result);
    batch = batch < threads ? threads : batch;
    for (int i = 0; i < 2; i++)
        if (!(results[i] = malloc(batch * sizeof(struct result)))) die("memory");
    pthread_barrier_init(&turn, NULL, threads + 1);
    for (uint32_t i = 0; i < threads; i++)
        if (pthread_create(&ids[i], NULL, work, (void *)(size_t)i)) die("thread");
    for (uint32_t begin = 0, turns = 0; begin < frames; begin += batch, turns++) {
        pthread_barrier_wait(&turn);
        for (uint32_t k = begin; k < frames && k < begin + batch; k++) write_one(text, file, k, &results[turns % 2][k - begin]);
    }
    for (uint32_t i = 0; i < threads; i++) pthread_join(ids[i], NULL);
}

int main(int argc, char **argv) {
    if (argc < 4) return 1;
    size_t size;
    bytes = whole(argv[1], &size);
    FILE *file = fopen(argv[2], "wb"), *text = fopen(argv[3], "wb");
    if (!file || !text) die("open");
    frames = frames_of(size, SIDE * SIDE);
    if (argc > 4 && !strcmp(argv[4], "all")) rule = (struct rule){510, 0, 1020, 2, BINS, 1};
    threads = argc > 5 ? (uint32_t)atoi(argv[5]) : 0;
    if (threads > MOST_THREADS) return 1;
    header(file, frames, HALF, 2, 1);
    if (threads) write_batches(text, file);
    static struct result one;
    for (uint32_t k = 0; !threads && k < frames; k++) {
        compute(k, &one);
        write_one(text, file, k, &one);
    }
    if (fclose(file) || fclose(text)) die("close");
    printf("frames %u\n", frames);
}
