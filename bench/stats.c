/* The workload `stats` of nd_bench as a plain program (statistics.h). Usage: stats stats TYPE BITS THRESHOLD BORDER BINS LOW HIGH PROFILES SIZES
   COUNT. */
#include "statistics.h"

static uint64_t mixed(uint64_t sum, __int128 more) { return sum * 31 + (uint64_t)more; }

static uint64_t checksum(const struct measure *m, const struct rule *rule, const struct given *g) {
    uint64_t sum = (uint64_t)m->squares;
    int64_t sums[] = {m->total, m->border, m->m0, m->min, m->max};
    uint32_t counts[] = {m->n, m->border_n, m->over, m->min_at, m->max_at, m->below, m->above};
    for (int i = 0; i < 5; i++) sum = mixed(sum, sums[i]);
    sum = mixed(sum, m->mx);
    sum = mixed(sum, m->my);
    for (int i = 0; i < 7; i++) sum = mixed(sum, counts[i]);
    for (uint32_t i = 0; i < rule->bins; i++) sum = mixed(sum, m->bins[i]);
    if (rule->profiles) {
        for (uint32_t i = 0; i < g->width; i++) sum = mixed(sum, m->x[i]);
        for (uint32_t i = 0; i < g->height; i++) sum = mixed(sum, m->y[i]);
    }
    return sum;
}

MEASURE(Int8, int8_t, uint8_t, byte, int32_t, NARROW, INT8_MIN, INT8_MAX)
MEASURE(UInt8, uint8_t, uint8_t, byte, uint32_t, NARROW, 0, UINT8_MAX)
MEASURE(Int16, int16_t, uint16_t, __builtin_bswap16, int32_t, NARROW, INT16_MIN, INT16_MAX)
MEASURE(UInt16, uint16_t, uint16_t, __builtin_bswap16, uint32_t, NARROW, 0, UINT16_MAX)
MEASURE(Int32, int32_t, uint32_t, __builtin_bswap32, int64_t, WIDE, INT32_MIN, INT32_MAX)
MEASURE(UInt32, uint32_t, uint32_t, __builtin_bswap32, int64_t, WIDE, (int64_t)0, UINT32_MAX)

int main(int argc, char **argv) {
    if (argc != 12) return 1;
    struct rule r = {strtoll(argv[4], 0, 10), strtoll(argv[7], 0, 10), strtoll(argv[8], 0, 10), strtoul(argv[5], 0, 10),
                     strtoul(argv[6], 0, 10), !strcmp(argv[9], "1")};
    struct given g = given(argv[2], atoi(argv[3]), argv[10]);
    uint32_t count = strtoul(argv[11], 0, 10);
    struct measure m = {0};
    m.bins = malloc(r.bins * 8 + 8), m.x = malloc(g.width * 8), m.y = malloc(g.height * 8);
    uint64_t sum = 0;
    for (uint32_t i = 0; i < count; i++) {
        m = (struct measure){.bins = m.bins, .x = m.x, .y = m.y};
        memset(m.bins, 0, r.bins * 8), memset(m.x, 0, g.width * 8), memset(m.y, 0, g.height * 8);
        switch (g.type) {
        case INT8: measure_Int8(&m, &r, &g); break;
        case UINT8: measure_UInt8(&m, &r, &g); break;
        case INT16: measure_Int16(&m, &r, &g); break;
        case UINT16: measure_UInt16(&m, &r, &g); break;
        case INT32: measure_Int32(&m, &r, &g); break;
        default: measure_UInt32(&m, &r, &g);
        }
        sum = sum * 31 + checksum(&m, &r, &g);
    }
    for (int i = 1; i < argc; i++) printf("%s ", argv[i]);
    printf("%llu\n", (unsigned long long)sum);
}
