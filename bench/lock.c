/* The workloads `lock-N` and `lock-idle` of nd_bench with a pthread mutex: N threads append their numbers to one list, and in
   `lock-idle` twelve more threads ask for its length, and yield, until all are there. */
#include <pthread.h>
#include <sched.h>
#include <stdint.h>
#include <stdio.h>
#include <stdlib.h>
#include <string.h>

enum { IDLE = 12, MOST = 64 };

static pthread_mutex_t mutex = PTHREAD_MUTEX_INITIALIZER;
static uint32_t *list;
static size_t length, room;
static uint64_t times, total;

static void append(uint32_t role) {
    pthread_mutex_lock(&mutex);
    if (length == room) {
        room = room ? 2 * room : 4;
        list = realloc(list, room * sizeof *list);
        if (!list)
            abort();
    }
    list[length++] = role;
    pthread_mutex_unlock(&mutex);
}

static void *work(void *role) {
    for (uint64_t i = 0; i < times; i++)
        append((uint32_t)(uintptr_t)role);
    return NULL;
}

static void *watch(void *unused) {
    for (;;) {
        pthread_mutex_lock(&mutex);
        size_t now = length;
        pthread_mutex_unlock(&mutex);
        if (now >= total)
            return unused;
        sched_yield();
    }
}

int main(int argc, char **argv) {
    const char *name = argc == 3 ? argv[1] : "lock-1";
    uint64_t count = argc == 3 ? strtoull(argv[2], NULL, 10) : 0;
    int idle = strcmp(name, "lock-idle") == 0 ? IDLE : 0;
    int workers = idle ? 1 : atoi(name + 5);
    pthread_t threads[MOST];
    if (workers < 1 || workers + idle > MOST)
        return 1;
    times = count / (uint64_t)workers;
    total = times * (uint64_t)workers;
    for (int i = 0; i < workers + idle; i++)
        if (pthread_create(&threads[i], NULL, i < workers ? work : watch, (void *)(uintptr_t)i))
            return 1;
    for (int i = 0; i < workers + idle; i++)
        pthread_join(threads[i], NULL);
    printf("%s %llu %zu\n", name, (unsigned long long)count, length);
}
