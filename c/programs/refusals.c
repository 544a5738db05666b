/* What a call refuses by name, with nothing changed: each allocation refused in turn, handles that hold nothing, a row
 * without a place, keys that were never given. Build it with the library's C file, under these names for its heap:
 * -Dmalloc=counted_malloc -Drealloc=counted_realloc -Dfree=counted_free */
#undef malloc
#undef realloc
#undef free
#include <stdio.h>
#include <stdlib.h>
#include <string.h>

#include "hontkhale.h"

static long asked, refused_at, held;

static int is_refused(void) {
    return ++asked == refused_at;
}

void *counted_malloc(size_t size);
void *counted_realloc(void *block, size_t size);
void counted_free(void *block);

void *counted_malloc(size_t size) {
    void *made = is_refused() ? NULL : malloc(size);
    held += made != NULL;
    return made;
}

void *counted_realloc(void *block, size_t size) {
    void *made = is_refused() ? NULL : realloc(block, size);
    held += made != NULL && block == NULL;
    return made;
}

void counted_free(void *block) {
    held -= block != NULL;
    free(block);
}

#define WANT(what) \
    do { \
        if (!(what)) { \
            fprintf(stderr, "%s:%d: not so: %s\n", __FILE__, __LINE__, #what); \
            exit(1); \
        } \
    } while (0)

static bool is_code(dq_answer answer, uint32_t code) {
    return answer.code == code && answer.first == 0 && answer.second == 0;
}

/* How many allocations a making has: each is refused in turn, and all that was taken is given back. */
static long makings(void) {
    for (long at = 1;; at++) {
        dq_queue queue = {0};
        asked = 0;
        refused_at = at;
        dq_answer answer = dq_new(&queue, 1, 100, DQ_LAST_STAMP);
        if (answer.code == DQ_OK) {
            WANT(asked < at && is_code(dq_free(&queue), DQ_OK) && held == 0);
            refused_at = 0;
            return at - 1;
        }
        WANT(is_code(answer, DQ_NO_MEMORY) && held == 0 && !queue.held && is_code(dq_len(&queue), DQ_EMPTY));
    }
}

static long issues(dq_queue *queue) {
    long before = held;
    for (long at = 1;; at++) {
        dq_caller caller = {0};
        asked = 0;
        refused_at = at;
        dq_answer answer = dq_issue(queue, &caller);
        if (answer.code == DQ_OK) {
            refused_at = 0;
            WANT(dq_returned(queue).code == DQ_CALLERS_OUT && is_code(dq_give_back(&caller), DQ_OK) && held == before);
            return at - 1;
        }
        WANT(is_code(answer, DQ_NO_MEMORY) && held == before && is_code(dq_give_back(&caller), DQ_EMPTY));
        WANT(is_code(dq_returned(queue), DQ_OK));
    }
}

/* How many allocations a renewal has: where one is refused, the queue is as it was. */
static long renewals(dq_queue *queue) {
    long before = held;
    dq_key key;
    for (long at = 1;; at++) {
        WANT(is_code(dq_insert(queue, 5, 10, &key), DQ_OK) && key.shard == 1);
        WANT(dq_renew(queue, 1).code == DQ_STILL_LINKED && dq_renew(queue, 2).first == 1);
        WANT(is_code(dq_remove(queue, &key, &(dq_removed){0}), DQ_OK));
        asked = 0;
        refused_at = at;
        WANT(dq_renew(queue, 1).code == DQ_USED_NUMBER && dq_renew(queue, 0).first == 1 && asked == 0);
        dq_answer answer = dq_renew(queue, 2);
        if (answer.code == DQ_OK) {
            refused_at = 0;
            WANT(asked < at && held == before && is_code(dq_insert(queue, 6, 10, &key), DQ_OK));
            WANT(key.shard == 2 && key.stamp == 1 && is_code(dq_remove(queue, &key, &(dq_removed){0}), DQ_OK));
            return at - 1;
        }
        WANT(is_code(answer, DQ_NO_MEMORY) && held == before);
    }
}

/* Each call on a handle that holds nothing. */
static void empty_handles(dq_queue *queue, dq_caller *caller) {
    dq_key key = {1, 0, 1, 1};
    dq_expired expired[2];
    dq_removed removed;
    dq_tally_t tally;
    memset(expired, 7, sizeof expired);
    memset(&removed, 7, sizeof removed);
    memset(&tally, 7, sizeof tally);
    WANT(is_code(dq_insert(queue, 1, 2, &key), DQ_EMPTY) && is_code(dq_reset(queue, &key, 2), DQ_EMPTY));
    WANT(is_code(dq_remove(queue, &key, &removed), DQ_EMPTY) && is_code(dq_deadline(queue, &key), DQ_EMPTY));
    WANT(is_code(dq_poll(queue, 1, expired), DQ_EMPTY) && is_code(dq_poll_many(queue, 1, expired, 2), DQ_EMPTY));
    WANT(is_code(dq_poll_some(queue, 1, 9, expired), DQ_EMPTY) && is_code(dq_sweep_some(queue, 0, 9), DQ_EMPTY));
    WANT(is_code(dq_reap(queue, &key), DQ_EMPTY));
    WANT(is_code(dq_next_wake(queue), DQ_EMPTY) && is_code(dq_len(queue), DQ_EMPTY) && is_code(dq_peek(queue, &key), DQ_EMPTY));
    WANT(is_code(dq_sweep(queue), DQ_EMPTY) && is_code(dq_clear(queue), DQ_EMPTY) && is_code(dq_tally(queue, &tally), DQ_EMPTY));
    WANT(is_code(dq_renew(queue, 1), DQ_EMPTY) && is_code(dq_issue(queue, caller), DQ_EMPTY) && is_code(dq_returned(queue), DQ_EMPTY));
    WANT(is_code(dq_free(queue), DQ_EMPTY) && is_code(dq_extend(caller, &key, 5), DQ_EMPTY));
    WANT(is_code(dq_cancel(caller, &key), DQ_EMPTY) && is_code(dq_look(caller, &key), DQ_EMPTY));
    WANT(is_code(dq_give_back(caller), DQ_EMPTY) && key.index == 0 && key.stamp == 1);
    for (size_t i = 0; i < sizeof expired; i++) {
        WANT(((unsigned char *)expired)[i] == 7);
    }
}

static void rows_without_a_place(dq_queue *queue) {
    dq_key key;
    dq_expired expired;
    WANT(dq_insert(queue, 5, 10, &key).code == DQ_OK);
    WANT(is_code(dq_poll_many(queue, 50, &expired, 0), DQ_NO_PLACE) && dq_len(queue).first == 1);
    WANT(dq_next_wake(queue).first == 10);
    WANT(dq_poll_many(queue, 50, &expired, 1).first == 1 && expired.value == 5 && expired.noted == 50);
    WANT(dq_poll_many(queue, DQ_LAST_TICK + 1ull, &expired, 1).code == DQ_TICK_TOO_LARGE);
}

int main(void) {
    dq_queue queue = {0};
    dq_caller caller = {0};
    dq_key key, forged;
    WANT(dq_form() == DQ_FORM);
    empty_handles(&queue, &caller);
    WANT(is_code(dq_new(&queue, 1, 0, 1), DQ_BAD_CONFIG) && is_code(dq_new(&queue, 1, 1, 0), DQ_BAD_CONFIG));
    WANT(is_code(dq_new(&queue, 1, DQ_CAPACITY_LIMIT + 1, 1), DQ_BAD_CONFIG));
    long made = makings();
    WANT(is_code(dq_new(&queue, 1, 100, DQ_LAST_STAMP), DQ_OK) && is_code(dq_new(&queue, 1, 1, 1), DQ_HELD));
    long issued = issues(&queue), renewed = renewals(&queue);
    rows_without_a_place(&queue);
    WANT(is_code(dq_issue(&queue, &caller), DQ_OK) && is_code(dq_issue(&queue, &caller), DQ_HELD));
    WANT(is_code(dq_insert(&queue, 9, 100, &key), DQ_OK));
    for (uint32_t number = 0; number < 4096; number++) {
        forged = (dq_key){2, number % 64 + 40, number / 64, number % 7};
        WANT(is_code(dq_remove(&queue, &forged, &(dq_removed){0}), DQ_MISSING));
        WANT(is_code(dq_reset(&queue, &forged, 5), DQ_MISSING) && is_code(dq_deadline(&queue, &forged), DQ_MISSING));
        WANT(is_code(dq_extend(&caller, &forged, 500), DQ_UNKNOWN) && is_code(dq_cancel(&caller, &forged), DQ_UNKNOWN));
    }
    for (uint32_t shard = 0; shard < 99; shard += 1 + (shard == 1)) {
        forged = (dq_key){shard, key.index, key.born, key.stamp};
        WANT(is_code(dq_remove(&queue, &forged, &(dq_removed){0}), DQ_MISSING));
        WANT(is_code(dq_extend(&caller, &forged, 500), DQ_UNKNOWN) && is_code(dq_cancel(&caller, &forged), DQ_UNKNOWN));
        WANT(is_code(dq_look(&caller, &forged), DQ_UNKNOWN));
        WANT(dq_extend(&caller, &forged, DQ_LAST_TICK + 1ull).code == DQ_TOO_FAR);
    }
    WANT(dq_deadline(&queue, &key).first == 100 && dq_len(&queue).first == 1);
    WANT(is_code(dq_free(&queue), DQ_OK));
    dq_answer ended = dq_extend(&caller, &key, 200);
    WANT(ended.code == DQ_ENDED && ended.first == DQ_REMOVED && ended.second == 100);
    WANT(is_code(dq_give_back(&caller), DQ_OK) && held == 0);
    empty_handles(&queue, &caller);
    printf("%ld allocations of a making, %ld of an issue and %ld of a renewal were refused in turn\n", made, issued, renewed);
    return 0;
}
