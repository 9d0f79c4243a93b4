/* Refuses an allocation of the program that it is preloaded into: the one whose number, from 1, is in ND_REFUSED, and with ND_FROM set each
 * later one, too. It writes how many there were so far into the file that ND_COUNTED names, since the program ends without a destructor. */
#define _GNU_SOURCE
#include <errno.h>
#include <fcntl.h>
#include <stdatomic.h>
#include <stdlib.h>
#include <unistd.h>

void *__libc_malloc(size_t size);
void *__libc_calloc(size_t count, size_t size);
void *__libc_realloc(void *old, size_t size);
void *__libc_memalign(size_t align, size_t size);

static atomic_ulong asked;
static unsigned long refused;
static int from;
static int counted = -1;

__attribute__((constructor)) static void begin(void) {
    const char *word = getenv("ND_REFUSED");
    refused = word ? strtoul(word, 0, 10) : 0;
    from = getenv("ND_FROM") != 0;
    const char *name = getenv("ND_COUNTED");
    if (name) counted = open(name, O_WRONLY | O_CREAT, 0644);
    atomic_store(&asked, 0);
}

static int refuses(void) {
    unsigned long number = atomic_fetch_add(&asked, 1) + 1;
    if (counted >= 0 && pwrite(counted, &number, sizeof number, 0) < 0) abort();
    if (refused == 0 || !(from ? number >= refused : number == refused)) return 0;
    errno = ENOMEM;
    return 1;
}

void *malloc(size_t size) { return refuses() ? 0 : __libc_malloc(size); }
void *calloc(size_t count, size_t size) { return refuses() ? 0 : __libc_calloc(count, size); }
void *realloc(void *old, size_t size) { return refuses() ? 0 : __libc_realloc(old, size); }
void *memalign(size_t align, size_t size) { return refuses() ? 0 : __libc_memalign(align, size); }
void *aligned_alloc(size_t align, size_t size) { return memalign(align, size); }
int posix_memalign(void **place, size_t align, size_t size) {
    void *made = memalign(align, size);
    if (!made) return ENOMEM;
    *place = made;
    return 0;
}
