/* What the C programs beside this file are given: the sample type, the bits of a sample and the sizes of an array, whose samples have no
   pattern. */
enum type { INT8, UINT8, INT16, UINT16, INT32, UINT32 };

struct given {
    enum type type;
    int bytes_each, rank;
    uint32_t sizes[10], width, height, samples;
    uint8_t *bytes;
};

static enum type type_of(const char *word) {
    static const char *const words[] = {"Int8", "UInt8", "Int16", "UInt16", "Int32", "UInt32"};
    for (int i = 0; i < 6; i++)
        if (!strcmp(word, words[i])) return (enum type)i;
    exit(1);
}

static int bytes_of(enum type type) { return 1 << type / 2; }

/* Sizes like 1024x1024, dimension 0 first. A sample has its lowest `bits` bits, and its most significant byte first. */
static struct given given(const char *type, int bits, const char *sizes) {
    struct given g = {type_of(type), 0, 0, {0}, 0, 1, 1, 0};
    g.bytes_each = bytes_of(g.type);
    for (char *end; g.rank < 10; sizes = end + 1) {
        g.sizes[g.rank] = strtoul(sizes, &end, 10);
        g.samples *= g.sizes[g.rank++];
        if (*end != 'x') break;
    }
    g.width = g.sizes[0];
    if (g.rank > 1) g.height = g.sizes[1];
    size_t count = (size_t)g.samples * g.bytes_each;
    g.bytes = malloc(count);
    uint32_t number = 1;
    for (size_t i = 0; i < count; i++) {
        number = number * 1664525u + 1013904223u;
        int kept = bits - 8 * (g.bytes_each - 1 - (int)(i % g.bytes_each));
        kept = kept < 0 ? 0 : kept > 8 ? 8 : kept;
        g.bytes[i] = (uint8_t)(number >> 24 & ((1u << kept) - 1));
    }
    return g;
}
