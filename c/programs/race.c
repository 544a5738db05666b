/* Four callers in threads of their own extend and cancel, while the owner polls, resets and removes: for a build with
 * ThreadSanitizer, or with AddressSanitizer and UndefinedBehaviorSanitizer. Each entry ends once. */
#include <pthread.h>
#include <sched.h>
#include <stdatomic.h>
#include <stdio.h>
#include <stdlib.h>

#include "hontkhale.h"

enum { ENTRIES = 64, THREADS = 4, CALLS = 60000 };

static dq_key keys[ENTRIES];
static pthread_barrier_t start;
/* The callers that are under way: on a machine with much to do the owner would be done before they begin. */
static atomic_int begun;

typedef struct {
    dq_caller caller;
    uint64_t seed, extends, cancels;
} worker;

static uint64_t draw(uint64_t *seed) {
    *seed ^= *seed << 13;
    *seed ^= *seed >> 7;
    *seed ^= *seed << 17;
    return *seed;
}

static void *work(void *argument) {
    worker *own = argument;
    pthread_barrier_wait(&start);
    for (int call = 0; call < CALLS; call++) {
        uint64_t drawn = draw(&own->seed);
        if (call == 100) {
            atomic_fetch_add(&begun, 1);
        }
        const dq_key *key = &keys[drawn % ENTRIES];
        if (drawn % 1024 == 0) {
            own->cancels += dq_cancel(&own->caller, key).code == DQ_OK;
        } else if (drawn % 8 == 1) {
            (void)dq_look(&own->caller, key);
        } else {
            own->extends += dq_extend(&own->caller, key, (drawn >> 20) % 4000).code == DQ_OK;
        }
    }
    return NULL;
}

int main(void) {
    dq_queue queue = {0};
    worker workers[THREADS];
    pthread_t threads[THREADS];
    dq_tally_t tally;
    uint64_t outs = 0, removes = 0, extends = 0, cancels = 0;
    if (dq_new(&queue, 0, 2 * ENTRIES, DQ_LAST_STAMP).code != DQ_OK) {
        return 1;
    }
    for (int i = 0; i < ENTRIES; i++) {
        dq_insert(&queue, (uint64_t)i, 100 + (uint64_t)i, &keys[i]);
    }
    pthread_barrier_init(&start, NULL, THREADS + 1);
    for (int i = 0; i < THREADS; i++) {
        workers[i] = (worker){{0}, 88172645463325252ull + (uint64_t)i, 0, 0};
        dq_issue(&queue, &workers[i].caller);
        pthread_create(&threads[i], NULL, work, &workers[i]);
    }
    pthread_barrier_wait(&start);
    while (atomic_load(&begun) < THREADS) {
        sched_yield();
    }
    for (uint64_t tick = 0; tick < 4000; tick++) {
        dq_expired expired[8];
        dq_removed removed;
        dq_key key = keys[tick % ENTRIES];
        dq_answer answer;
        do {
            answer = dq_poll_many(&queue, tick, expired, 8);
            outs += answer.first;
        } while (answer.code == DQ_OK);
        if (tick % 16 == 3) {
            (void)dq_reset(&queue, &key, tick + 500);
        } else if (tick % 64 == 5) {
            removes += dq_remove(&queue, &key, &removed).code == DQ_OK;
        } else if (tick % 512 == 6) {
            (void)dq_sweep(&queue);
        }
    }
    for (int i = 0; i < THREADS; i++) {
        pthread_join(threads[i], NULL);
        extends += workers[i].extends;
        cancels += workers[i].cancels;
        dq_give_back(&workers[i].caller);
    }
    outs += dq_poll_many(&queue, 10000, (dq_expired[ENTRIES]){{{0}, 0, 0, 0}}, ENTRIES).first;
    (void)dq_sweep(&queue);
    dq_tally(&queue, &tally);
    if (outs + removes + cancels != ENTRIES || tally.expired != outs || tally.removed != removes || extends == 0
        || tally.cancelled != cancels || dq_returned(&queue).first != cancels) {
        fprintf(stderr, "%llu came out, %llu were removed, %llu cancelled\n", (unsigned long long)outs,
                (unsigned long long)removes, (unsigned long long)cancels);
        return 1;
    }
    dq_free(&queue);
    puts("each entry ended once");
    return 0;
}
