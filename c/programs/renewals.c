/* An empty queue is renewed for as long as there are numbers: 3,000,000 inserts into 64 slots that wear, and 3,000,000
 * resets of one key. What was issued before a renewal reaches nothing after it. */
#include <stdio.h>
#include <stdlib.h>

#include "hontkhale.h"

enum { TIMES = 3000000 };

#define WANT(what) \
    do { \
        if (!(what)) { \
            fprintf(stderr, "%s:%d: not so: %s\n", __FILE__, __LINE__, #what); \
            exit(1); \
        } \
    } while (0)

static dq_removed removed;

/* Renews the queue, whose last key was `last`, and has the caller issued anew. */
static uint32_t renew(dq_queue *queue, dq_caller *caller, const dq_key *last) {
    uint32_t number = last->shard;
    dq_tally_t tally;
    WANT(dq_renew(queue, number).code == DQ_USED_NUMBER && dq_renew(queue, number).first == number);
    WANT(dq_renew(queue, number + 1).code == DQ_OK);
    WANT(dq_remove(queue, last, &removed).code == DQ_MISSING && dq_returned(queue).code == DQ_OK);
    WANT(dq_extend(caller, last, 1).code == DQ_ENDED && dq_give_back(caller).code == DQ_OK);
    WANT(dq_issue(queue, caller).code == DQ_OK && dq_returned(queue).first == 1);
    WANT(dq_extend(caller, last, 1).code == DQ_UNKNOWN && dq_cancel(caller, last).code == DQ_UNKNOWN);
    WANT(dq_tally(queue, &tally).code == DQ_OK && tally.inserted == 0 && tally.expired == 0 && tally.removed == 0);
    return number + 1;
}

static void inserts(void) {
    dq_queue queue = {0};
    dq_caller caller = {0};
    dq_key key = {0}, last = {0};
    dq_expired out;
    uint64_t renewals = 0;
    WANT(dq_new(&queue, 0, 64, 1000).code == DQ_OK && dq_issue(&queue, &caller).code == DQ_OK);
    for (uint64_t now = 0; now < TIMES; now++) {
        dq_answer answer = dq_insert(&queue, now, now, &key);
        if (answer.code == DQ_FULL) {
            WANT(answer.first == 0 && answer.second == 64 && last.stamp == 1000);
            renewals += 1;
            WANT(renew(&queue, &caller, &last) == renewals && dq_insert(&queue, now, now, &key).code == DQ_OK);
            WANT(key.shard == renewals && key.stamp == 1 && dq_renew(&queue, UINT32_MAX).code == DQ_STILL_LINKED);
        }
        WANT(dq_extend(&caller, &key, now).first == now);
        WANT(dq_poll(&queue, now, &out).code == DQ_OK && out.value == now && out.noted == now);
        last = key;
    }
    WANT(renewals == TIMES / 64000 && dq_give_back(&caller).code == DQ_OK && dq_free(&queue).code == DQ_OK);
}

static void resets(void) {
    dq_queue queue = {0};
    dq_caller caller = {0};
    dq_key key = {0};
    uint32_t number = 5;
    WANT(dq_new(&queue, number, 1, DQ_LAST_STAMP).code == DQ_OK && dq_issue(&queue, &caller).code == DQ_OK);
    WANT(dq_insert(&queue, 7, 0, &key).code == DQ_OK);
    for (uint64_t when = 1; when <= TIMES; when++) {
        if (dq_reset(&queue, &key, when).code == DQ_WORN) {
            WANT(dq_remove(&queue, &key, &removed).code == DQ_OK && removed.value == 7);
            number = renew(&queue, &caller, &key);
            WANT(dq_insert(&queue, removed.value, when, &key).code == DQ_OK && key.shard == number);
        }
    }
    WANT(number == 5 + TIMES / DQ_LAST_STAMP && dq_deadline(&queue, &key).first == TIMES);
    WANT(dq_cancel(&caller, &key).first == TIMES && dq_renew(&queue, UINT32_MAX).first == 1 && dq_sweep(&queue).first == 1);
    WANT(dq_renew(&queue, UINT32_MAX).code == DQ_OK && dq_renew(&queue, UINT32_MAX).code == DQ_USED_NUMBER);
    WANT(dq_free(&queue).code == DQ_OK && dq_give_back(&caller).first == 1);
}

int main(void) {
    inserts();
    resets();
    return 0;
}
