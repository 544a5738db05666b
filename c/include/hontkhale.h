/* Hontkhale: a delay queue on hierarchical timing wheels, proved in Rattle, for C.
 *
 * A queue belongs to one owner. Other threads extend, cancel and look at its entries, each by a caller of its own, without
 * a lock. Ticks are whole numbers, one a millisecond, and are handed in: no clock is read. A deadline is at most
 * DQ_LAST_TICK, a queue has at most DQ_CAPACITY_LIMIT slots, and takes all its memory in dq_new. A caller takes its own in
 * dq_issue.
 *
 * What each call does is proved, for any arguments that keep these rules, which C must keep and nothing checks:
 *
 *  - A handle begins as {0}. After that only the calls below write it, and it isn't copied: there is one of each.
 *  - One call at a time uses a handle. Whoever hands it to another thread orders that: all that was done to the handle
 *    happens before what is done next. What is proved takes a lock, a thread's start or join, or a sequentially consistent
 *    atomic for it. By C11's rules any hand-over suffices that releases and acquires, as a channel's. An owner and callers,
 *    with handles of their own, need no such order.
 *  - Each pointer that is passed points to a struct that is alive and written, and no two of a call's pointers overlap.
 *  - malloc, realloc and free come from one allocator. They are the only code of the program that runs inside a call: there
 *    are no callbacks, and a value is a number that nobody drops. So they must return: none of them calls this library,
 *    throws an exception, or leaves a call by longjmp, nor does a signal handler leave one so. A queue or a caller whose
 *    call was left may not be used again, not even to free it.
 *  - No call is made from a signal handler, or in the child of a process with threads that forked.
 *
 * A handle that was freed or given back is empty: each further call on it answers DQ_EMPTY, and reads nothing.
 * A call that is refused changes nothing, but that the owner may learn what callers did meanwhile.
 */
#ifndef HONTKHALE_H
#define HONTKHALE_H

#include <stdbool.h>
#include <stddef.h>
#include <stdint.h>

#ifdef __cplusplus
extern "C" {
#endif

#define DQ_CAPACITY_LIMIT 65536
#define DQ_LAST_STAMP 1048575
#define DQ_LAST_TICK 4398046511103
#define DQ_CALLER_LIMIT 1024
/* The form of the library that this header is written for: dq_form tells that of the one that is linked. */
#define DQ_FORM 4

/* What a call answers. `first` and `second` are 0 where a code carries no number. */
enum {
    DQ_OK = 0,                /* the call did what it says; some tell a number */
    DQ_EMPTY = 1,             /* the handle holds nothing */
    DQ_HELD = 2,              /* the handle holds something already */
    DQ_TOO_FAR = 3,           /* the deadline is beyond the last tick, `first` */
    DQ_FULL = 4,              /* no slot is free: `first` entries are linked, `second` slots are worn */
    DQ_MISSING = 5,           /* no entry is linked with the key's shard, index and birth */
    DQ_WAS_CANCELLED = 6,     /* a caller cancelled the entry */
    DQ_WORN = 7,              /* the entry's slot has no stamp left for another key */
    DQ_TICK_TOO_LARGE = 8,    /* the tick is beyond the last tick, `first` */
    DQ_BAD_CONFIG = 9,        /* a number of the configuration is out of its range */
    DQ_NO_MEMORY = 10,        /* memory was refused */
    DQ_WAITING = 11,          /* nothing is due: a number is the next tick with something to do */
    DQ_IDLE = 12,             /* nothing is linked */
    DQ_UNKNOWN = 13,          /* the key names no slot, or a stamp that its slot wasn't given */
    DQ_STALE = 14,            /* the slot has a later stamp, `first` */
    DQ_ENDED = 15,            /* the entry has ended: `first` says how, `second` at which deadline */
    DQ_TOO_MANY_CALLERS = 16, /* the queue has issued `first` callers, as many as it may */
    DQ_CALLERS_OUT = 17,      /* `first` callers are out */
    DQ_NO_PLACE = 18,         /* the row has no place to write to */
    DQ_STILL_LINKED = 19,     /* `first` entries are linked */
    DQ_USED_NUMBER = 20,      /* the number isn't higher than the queue's, `first` */
    DQ_WORKING = 21,          /* the call did as much as it may, and more may be left: call again */
    DQ_STILL_LIVE = 22        /* the entry is live, so it isn't reaped */
};

/* How an entry stands, where an answer says it in `first`. */
enum {
    DQ_LIVE = 0,      /* live, with the deadline `second` in force */
    DQ_CANCELLED = 1, /* cancelled; `second` is 0 */
    DQ_EXPIRED = 2,   /* expired at the deadline `second` */
    DQ_REMOVED = 3    /* removed while the deadline `second` was in force */
};

typedef struct {
    uint32_t code;
    uint64_t first;
    uint64_t second;
} dq_answer;

/* The handle of a queue, {0} at first. Its fields are the library's. */
typedef struct {
    void *ptr;
    bool held;
} dq_queue;

/* The handle of a caller, {0} at first. Its fields are the library's. */
typedef struct {
    void *ptr;
    bool held;
} dq_caller;

/* An entry, and the stamp at which it is meant. Any key may be passed: a forged or an old one is refused. `shard` is the
 * number that the queue had at the insert, and a caller takes keys of the number alone that its queue had at the issue: give
 * each queue a number of its own. */
typedef struct {
    uint32_t shard;
    uint32_t index;
    uint32_t born;
    uint32_t stamp;
} dq_key;

typedef struct {
    dq_key key;
    uint64_t deadline;
    uint64_t noted;
    uint64_t value;
} dq_expired;

typedef struct {
    dq_key key;
    uint64_t deadline;
    uint64_t value;
} dq_removed;

typedef struct {
    uint64_t inserted;
    uint64_t expired;
    uint64_t removed;
    uint64_t cancelled;
    uint64_t linked;
    uint64_t moves;
} dq_tally_t;

/* Tells the form of the library, DQ_FORM where it is the one that belongs to this header. */
uint32_t dq_form(void);

/* Makes a queue into an empty handle: 1 to DQ_CAPACITY_LIMIT slots, and a last stamp from 1 to DQ_LAST_STAMP, after which
 * a slot is worn. DQ_OK, DQ_HELD, DQ_BAD_CONFIG, DQ_NO_MEMORY. */
dq_answer dq_new(dq_queue *queue, uint32_t shard, size_t capacity, uint32_t last_stamp);

/* Frees a queue, and ends what is live in it: from then on its callers' extends and cancels of it answer DQ_ENDED, removed.
 * They may be used on and given back after it. DQ_OK, DQ_EMPTY. */
dq_answer dq_free(dq_queue *queue);

/* Puts an entry in, and writes its key. DQ_OK, DQ_EMPTY, DQ_TOO_FAR, DQ_FULL. */
dq_answer dq_insert(dq_queue *queue, uint64_t value, uint64_t when, dq_key *key);

/* Gives a live entry another deadline, and writes its new key over the old. DQ_OK, DQ_EMPTY, DQ_TOO_FAR, DQ_MISSING,
 * DQ_WAS_CANCELLED, DQ_WORN. */
dq_answer dq_reset(dq_queue *queue, dq_key *key, uint64_t when);

/* Takes a live entry out. DQ_OK, DQ_EMPTY, DQ_MISSING, DQ_WAS_CANCELLED. */
dq_answer dq_remove(dq_queue *queue, const dq_key *key, dq_removed *removed);

/* Tells the deadline in force. DQ_OK with it, DQ_EMPTY, DQ_MISSING, DQ_WAS_CANCELLED. */
dq_answer dq_deadline(dq_queue *queue, const dq_key *key);

/* Notes a tick, and takes out one entry whose deadline is reached: DQ_OK, call again. Else DQ_WAITING with the tick to
 * come again, or DQ_IDLE. DQ_EMPTY, DQ_TICK_TOO_LARGE. */
dq_answer dq_poll(dq_queue *queue, uint64_t tick, dq_expired *expired);

/* The same for a row of `places`: takes out as many as are due and have a place, and writes them from its front; the places
 * behind them stay. DQ_OK with how many where the row is full: call again. Else DQ_WAITING with how many and, in `second`,
 * the tick to come again, or DQ_IDLE with how many. DQ_EMPTY, DQ_NO_PLACE for a row of 0 places, DQ_TICK_TOO_LARGE; no
 * tick is noted then. */
dq_answer dq_poll_many(dq_queue *queue, uint64_t tick, dq_expired *expired, size_t places);

/* As dq_poll, but it makes at most `most` steps, each in constant time: for an owner who can't wait where many entries are due
 * or move at once. DQ_WORKING where it made all of its steps: call again, with `expired` as it was. Each such call leaves at
 * least so many steps fewer, so one of 0 steps only notes the tick. Any other call may be made between. Else as dq_poll. */
dq_answer dq_poll_some(dq_queue *queue, uint64_t tick, uint32_t most, dq_expired *expired);

/* DQ_WAITING with the next tick with something to do, DQ_IDLE, DQ_EMPTY. */
dq_answer dq_next_wake(dq_queue *queue);

/* Writes the key of a linked entry that the wheels have first, as of its present stamp; a caller may have extended or
 * cancelled it. DQ_OK, DQ_IDLE where nothing is linked, DQ_EMPTY. */
dq_answer dq_peek(dq_queue *queue, dq_key *key);

/* DQ_OK with the number of linked entries, DQ_EMPTY. */
dq_answer dq_len(dq_queue *queue);

/* Reaps what was cancelled. DQ_OK with how many, DQ_EMPTY. */
dq_answer dq_sweep(dq_queue *queue);

/* Reaps what was cancelled at `count` slots from `from` on, and looks at no other slot. DQ_WORKING with how many and, in
 * `second`, the slot to go on from; DQ_OK with how many where no slot is left behind them. DQ_EMPTY. */
dq_answer dq_sweep_some(dq_queue *queue, size_t from, size_t count);

/* Reaps one entry that was cancelled, in constant time. DQ_OK, DQ_EMPTY, DQ_MISSING, DQ_STILL_LIVE. */
dq_answer dq_reap(dq_queue *queue, const dq_key *key);

/* Ends every entry. DQ_OK with how many it removed, DQ_EMPTY. */
dq_answer dq_clear(dq_queue *queue);

/* How many entries came and went. DQ_OK, DQ_EMPTY. */
dq_answer dq_tally(dq_queue *queue, dq_tally_t *tally);

/* An empty queue goes on under the higher number `shard`, with all its stamps: no slot is worn then, and its tally begins
 * anew but for the moves. Its ticks go on. Each key from before is refused for good. Callers that were issued before refuse
 * the keys from now on: give them back, and issue new ones. It takes memory for the words. DQ_OK, DQ_EMPTY, DQ_STILL_LINKED,
 * DQ_USED_NUMBER, DQ_NO_MEMORY. */
dq_answer dq_renew(dq_queue *queue, uint32_t shard);

/* Issues a caller into an empty handle. DQ_OK, DQ_EMPTY, DQ_HELD, DQ_NO_MEMORY, DQ_TOO_MANY_CALLERS. */
dq_answer dq_issue(dq_queue *queue, dq_caller *caller);

/* Raises a live entry's deadline. DQ_OK with the one in force, DQ_EMPTY, DQ_TOO_FAR, DQ_UNKNOWN, DQ_STALE, DQ_ENDED. */
dq_answer dq_extend(dq_caller *caller, const dq_key *key, uint64_t when);

/* Cancels a live entry. DQ_OK with the deadline that it gave up, DQ_EMPTY, DQ_UNKNOWN, DQ_STALE, DQ_ENDED. */
dq_answer dq_cancel(dq_caller *caller, const dq_key *key);

/* DQ_OK with how the entry stands and its deadline, DQ_EMPTY, DQ_UNKNOWN, DQ_STALE. */
dq_answer dq_look(dq_caller *caller, const dq_key *key);

/* Gives a caller back. DQ_OK with its accepted cancels, DQ_EMPTY. */
dq_answer dq_give_back(dq_caller *caller);

/* DQ_OK with the accepted cancels of all callers, DQ_CALLERS_OUT with how many are out, DQ_EMPTY. */
dq_answer dq_returned(dq_queue *queue);

#ifdef __cplusplus
}
#endif

#endif
