/* Measures the time that the threads of a run need for themselves. A controller for each node and one thread for the bus
 * go through the windows as those of fr_bench do, with one lock, two condition variables, and some looks before a thread
 * sleeps. Nothing is offered, observed, recorded or cross-checked. The words are the numbers of nodes, windows and looks.
 *
 *     cc -O2 -pthread -o run_floor bench/run_floor.c && ./run_floor 16 32768 200
 */
#include <pthread.h>
#include <sched.h>
#include <stdatomic.h>
#include <stdio.h>
#include <stdlib.h>
#include <time.h>

enum { MOST_NODES = 64 };
enum phase { COLLECT, SEALED, FINISHED };
enum call { OFFER, SEAL, TAKE, ADVANCE };

struct signal {
    atomic_uint given;
    pthread_cond_t sleepers;
};

static pthread_mutex_t lock = PTHREAD_MUTEX_INITIALIZER;
static struct signal for_nodes = {.sleepers = PTHREAD_COND_INITIALIZER};
static struct signal for_bus = {.sleepers = PTHREAD_COND_INITIALIZER};
static enum phase phase = COLLECT;
static unsigned nodes, put, taken, window, windows, looks;

static int is_due(enum call call) {
    switch (call) {
    case OFFER: return phase != SEALED;
    case SEAL: return phase == FINISHED || (phase == COLLECT && put == nodes);
    case TAKE: return phase != COLLECT;
    case ADVANCE: return phase == FINISHED || (phase == SEALED && taken == nodes);
    }
    return 1;
}

static void give(struct signal *signal) {
    atomic_fetch_add_explicit(&signal->given, 1, memory_order_release);
    pthread_cond_broadcast(&signal->sleepers);
}

/* Returns with the lock held, once the call needn't wait. */
static void ready(struct signal *signal, enum call call) {
    pthread_mutex_lock(&lock);
    if (is_due(call))
        return;
    unsigned before = atomic_load_explicit(&signal->given, memory_order_acquire);
    pthread_mutex_unlock(&lock);
    for (unsigned look = 0; look < looks; look++) {
        if (atomic_load_explicit(&signal->given, memory_order_acquire) != before)
            break;
        sched_yield();
    }
    pthread_mutex_lock(&lock);
    while (!is_due(call))
        pthread_cond_wait(&signal->sleepers, &lock);
}

/* One call of the wire that counts an arrival; the last to arrive wakes the bus. */
static void arrive(enum call call, unsigned *count) {
    ready(&for_nodes, call);
    int last = ++*count == nodes;
    pthread_mutex_unlock(&lock);
    if (last)
        give(&for_bus);
}

static int is_over(void) {
    ready(&for_nodes, OFFER);
    int over = phase == FINISHED;
    pthread_mutex_unlock(&lock);
    return over;
}

static void *node(void *unused) {
    while (!is_over()) {
        arrive(OFFER, &put);
        arrive(TAKE, &taken);
    }
    return unused;
}

static void *bus(void *unused) {
    while (!is_over()) {
        ready(&for_bus, SEAL);
        phase = SEALED;
        pthread_mutex_unlock(&lock);
        give(&for_nodes);
        ready(&for_bus, ADVANCE);
        put = taken = 0;
        phase = ++window == windows ? FINISHED : COLLECT;
        pthread_mutex_unlock(&lock);
        give(&for_nodes);
    }
    return unused;
}

int main(int count, char **words) {
    nodes = count > 1 ? atoi(words[1]) : 16;
    windows = count > 2 ? atoi(words[2]) : 32768;
    looks = count > 3 ? atoi(words[3]) : 200;
    if (nodes < 1 || nodes > MOST_NODES || windows < 1)
        return 2;
    struct timespec start, end;
    clock_gettime(CLOCK_MONOTONIC, &start);
    pthread_t threads[MOST_NODES + 1];
    for (unsigned at = 0; at <= nodes; at++)
        if (pthread_create(&threads[at], NULL, at == nodes ? bus : node, NULL) != 0)
            return 1;
    for (unsigned at = 0; at <= nodes; at++)
        pthread_join(threads[at], NULL);
    clock_gettime(CLOCK_MONOTONIC, &end);
    printf("%.3f s\n", (double)(end.tv_sec - start.tv_sec) + (double)(end.tv_nsec - start.tv_nsec) / 1e9);
    return 0;
}
