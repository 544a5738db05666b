// Leases: one is renewed in time, one is given back, one expires.
#include <inttypes.h>
#include <stdio.h>
#include <stdlib.h>

#include "hontkhale.h"

// Ends the program if a call's code isn't the one that is wanted, with the line that it was made in.
static dq_answer checked(dq_answer answer, uint32_t code, int line)
{
    if (answer.code != code) {
        fprintf(stderr, "leases.c:%d: code %" PRIu32 " where %" PRIu32 " was expected\n", line, (uint32_t)answer.code, code);
        exit(EXIT_FAILURE);
    }
    return answer;
}

#define CHECK(answer, code) checked(answer, code, __LINE__)

static void expire(dq_queue *queue, uint64_t tick)
{
    dq_expired out = {0};
    dq_answer answer;
    while ((answer = dq_poll(queue, tick, &out)).code == DQ_OK)
        printf("%" PRIu64 ": lease %" PRIu64 " expired at %" PRIu64 "\n", tick, out.value, out.deadline);
    if (answer.code == DQ_WAITING) {
        printf("%" PRIu64 ": come again at %" PRIu64 "\n", tick, answer.first);
        return;
    }
    CHECK(answer, DQ_IDLE);
    printf("%" PRIu64 ": no lease is left\n", tick);
}

int main(void)
{
    dq_queue queue = {0};
    dq_caller caller = {0};
    dq_key keys[3] = {{0}};
    CHECK(dq_insert(&queue, 0, 10, &keys[0]), DQ_EMPTY);
    CHECK(dq_new(&queue, 0, 4, DQ_LAST_STAMP), DQ_OK);
    CHECK(dq_issue(&queue, &caller), DQ_OK);
    for (uint64_t lease = 0; lease < 3; lease++)
        CHECK(dq_insert(&queue, lease, 10 * (lease + 1), &keys[lease]), DQ_OK);
    printf("lease 0 lasts until %" PRIu64 "\n", CHECK(dq_extend(&caller, &keys[0], 50), DQ_OK).first);
    printf("lease 1 is given back, it lasted until %" PRIu64 "\n", CHECK(dq_cancel(&caller, &keys[1]), DQ_OK).first);
    expire(&queue, 30);
    expire(&queue, 50);
    printf("lease 0 %s\n", CHECK(dq_look(&caller, &keys[0]), DQ_OK).first == DQ_EXPIRED ? "has expired" : "is live");
    CHECK(dq_returned(&queue), DQ_CALLERS_OUT);
    CHECK(dq_give_back(&caller), DQ_OK);
    CHECK(dq_give_back(&caller), DQ_EMPTY);
    printf("lease holders cancelled %" PRIu64 "\n", CHECK(dq_returned(&queue), DQ_OK).first);
    CHECK(dq_free(&queue), DQ_OK);
    CHECK(dq_free(&queue), DQ_EMPTY);
    return 0;
}
