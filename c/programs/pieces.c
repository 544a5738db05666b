/* A poll in pieces beside a whole one, over two queues of the same entries, of which a caller extended some and cancelled
 * others; so many steps as are asked for, and no more; a sweep of some slots, and a reap of one entry. */
#include <stdio.h>
#include <stdlib.h>
#include <string.h>

#include "hontkhale.h"

enum { ENTRIES = 5000 };

#define WANT(what) \
    do { \
        if (!(what)) { \
            fprintf(stderr, "%s:%d: not so: %s\n", __FILE__, __LINE__, #what); \
            exit(1); \
        } \
    } while (0)

static bool is_code(dq_answer answer, uint32_t code) {
    return answer.code == code && answer.first == 0 && answer.second == 0;
}

typedef struct {
    dq_queue queue;
    dq_caller caller;
    dq_key keys[ENTRIES];
} side;

/* What came out at a tick. */
typedef struct {
    uint64_t count;
    uint64_t deadlines; /* a hash of them in their order */
    uint64_t values;
} outs;

static void fill(side *side) {
    memset(side, 0, sizeof *side);
    WANT(is_code(dq_new(&side->queue, 1, ENTRIES, DQ_LAST_STAMP), DQ_OK) && is_code(dq_issue(&side->queue, &side->caller), DQ_OK));
    for (uint64_t i = 0; i < ENTRIES; i++) {
        uint64_t when = i % 2 ? 70000 : i * 7919 % 60000;
        WANT(is_code(dq_insert(&side->queue, i, when, &side->keys[i]), DQ_OK));
        WANT(i % 3 || dq_extend(&side->caller, &side->keys[i], when + i).code == DQ_OK);
        WANT(i % 7 || dq_cancel(&side->caller, &side->keys[i]).code == DQ_OK);
    }
}

static void empty(side *side) {
    WANT(is_code(dq_free(&side->queue), DQ_OK) && dq_give_back(&side->caller).code == DQ_OK);
}

static void note(outs *outs, const dq_expired *out, uint64_t tick) {
    WANT(out->noted == tick && out->deadline <= tick);
    outs->count += 1;
    outs->deadlines = 31 * outs->deadlines + out->deadline;
    outs->values += out->value * out->value;
}

static dq_answer whole(side *side, uint64_t tick, outs *outs) {
    dq_expired out;
    dq_answer answer;
    while ((answer = dq_poll(&side->queue, tick, &out)).code == DQ_OK) {
        note(outs, &out, tick);
    }
    return answer;
}

/* Polls on until nothing comes out, and counts the calls. Where a call says DQ_WORKING it writes nothing. */
static dq_answer in_pieces(side *side, uint64_t tick, uint32_t most, outs *outs, uint64_t *calls) {
    dq_expired out, before;
    memset(&out, 7, sizeof out);
    for (;;) {
        memcpy(&before, &out, sizeof out);
        dq_answer answer = dq_poll_some(&side->queue, tick, most, &out);
        *calls += 1;
        if (answer.code == DQ_OK) {
            note(outs, &out, tick);
        } else {
            WANT(memcmp(&before, &out, sizeof out) == 0);
            if (answer.code != DQ_WORKING) {
                return answer;
            }
            WANT(answer.first == 0 && answer.second == 0);
        }
    }
}

static void pieces_beside_a_whole_poll(uint32_t most) {
    static side one, other;
    uint64_t calls = 0;
    fill(&one);
    fill(&other);
    for (uint64_t tick = 0; tick < 90000; tick += 1 + tick / 3) {
        outs wholes = {0}, pieces = {0};
        dq_answer waits = whole(&one, tick, &wholes), rests = in_pieces(&other, tick, most, &pieces, &calls);
        WANT(waits.code == rests.code && (rests.code == DQ_IDLE || rests.first > tick));
        WANT(wholes.count == pieces.count && wholes.deadlines == pieces.deadlines && wholes.values == pieces.values);
    }
    WANT(calls > ENTRIES / 2);
    empty(&one);
    empty(&other);
}

/* How many calls a poll takes in which nothing comes out: the first after all entries were extended. */
static uint64_t calls_of(uint32_t most) {
    static side side;
    uint64_t calls = 0;
    outs none = {0};
    fill(&side);
    for (uint64_t i = 0; i < ENTRIES; i++) {
        dq_extend(&side.caller, &side.keys[i], 1000000);
    }
    WANT(in_pieces(&side, 500000, most, &none, &calls).code == DQ_WAITING && none.count == 0);
    empty(&side);
    return calls;
}

static void so_many_steps(void) {
    uint64_t steps = calls_of(1);
    WANT(steps > ENTRIES && calls_of(UINT32_MAX) == 1);
    for (uint32_t most = 2; most < 10000; most = 3 * most + 1) {
        WANT(calls_of(most) == (steps + most - 1) / most);
    }
}

static void no_steps(void) {
    dq_queue queue = {0};
    dq_key key;
    dq_expired out = {0};
    WANT(is_code(dq_poll_some(&queue, 1, 1, &out), DQ_EMPTY));
    WANT(is_code(dq_new(&queue, 1, 2, 5), DQ_OK) && is_code(dq_insert(&queue, 3, 10, &key), DQ_OK));
    for (int times = 0; times < 1000; times++) {
        WANT(is_code(dq_poll_some(&queue, 50, 0, &out), DQ_WORKING) && out.value == 0 && dq_len(&queue).first == 1);
    }
    WANT(dq_poll_some(&queue, DQ_LAST_TICK + 1ull, 0, &out).code == DQ_TICK_TOO_LARGE);
    WANT(dq_poll_some(&queue, DQ_LAST_TICK + 1ull, 9, &out).first == DQ_LAST_TICK);
    WANT(is_code(dq_poll_some(&queue, 0, 9, &out), DQ_OK) && out.noted == 50 && out.value == 3);
    WANT(is_code(dq_poll_some(&queue, DQ_LAST_TICK, UINT32_MAX, &out), DQ_IDLE) && is_code(dq_free(&queue), DQ_OK));
}

static void some_slots(void) {
    static side side;
    size_t from = 0, cancelled = (ENTRIES + 6) / 7, reaped = 0, calls = 0;
    fill(&side);
    for (dq_answer answer = {DQ_WORKING, 0, 0}; answer.code == DQ_WORKING; from = answer.second, calls++) {
        answer = dq_sweep_some(&side.queue, from, 77);
        WANT(answer.code == DQ_WORKING ? answer.second == from + 77 : answer.code == DQ_OK && answer.second == 0);
        reaped += answer.first;
        WANT(answer.first <= 12 && dq_len(&side.queue).first == ENTRIES - reaped);
    }
    WANT(calls == (ENTRIES + 76) / 77 && reaped == cancelled && is_code(dq_sweep(&side.queue), DQ_OK));
    WANT(is_code(dq_sweep_some(&side.queue, SIZE_MAX, SIZE_MAX), DQ_OK) && is_code(dq_sweep_some(&side.queue, 0, SIZE_MAX), DQ_OK));
    WANT(dq_sweep_some(&side.queue, 5, 0).second == 5 && is_code(dq_sweep_some(&side.queue, ENTRIES, 0), DQ_OK));
    empty(&side);
    WANT(is_code(dq_sweep_some(&side.queue, 0, 1), DQ_EMPTY));
}

static void one_entry(void) {
    static side side;
    fill(&side);
    const dq_key *live = &side.keys[1], *cancelled = &side.keys[7];
    WANT(is_code(dq_reap(&side.queue, live), DQ_STILL_LIVE) && dq_deadline(&side.queue, live).code == DQ_OK);
    WANT(dq_deadline(&side.queue, cancelled).code == DQ_WAS_CANCELLED && dq_len(&side.queue).first == ENTRIES);
    WANT(is_code(dq_reap(&side.queue, cancelled), DQ_OK) && dq_len(&side.queue).first == ENTRIES - 1);
    WANT(is_code(dq_reap(&side.queue, cancelled), DQ_MISSING) && is_code(dq_deadline(&side.queue, cancelled), DQ_MISSING));
    dq_key forged = {2, live->index, live->born, live->stamp};
    WANT(is_code(dq_reap(&side.queue, &forged), DQ_MISSING) && dq_sweep(&side.queue).first == (ENTRIES + 6) / 7 - 1);
    empty(&side);
    WANT(is_code(dq_reap(&side.queue, live), DQ_EMPTY));
}

int main(void) {
    for (uint32_t most = 1; most < 20000; most = 5 * most + 2) {
        pieces_beside_a_whole_poll(most);
    }
    so_many_steps();
    no_steps();
    some_slots();
    one_entry();
    return 0;
}
