/* The executive's table in a block of bytes, and the three functions on it, for C99 and C++ on x86-64 Linux.
   Link target/native/libtankwesho.a, which `host/library` writes. Its functions are proved; this header and whoever includes it are not.
   docs/BLOCK.md has the block byte by byte, docs/REFERENCE.md the operations and the statuses. */
#ifndef TANKWESHO_H
#define TANKWESHO_H

#include <stddef.h>
#include <stdint.h>

#ifdef __cplusplus
extern "C" {
#endif

/* The size of a block, in bytes. A layout that changes gets another size, so that a block of an older one is refused and never misread. */
#define TANKWESHO_BLOCK_SIZE 3272

/* The caller that is no task. It may SIGNAL and TICK. */
#define TANKWESHO_OUTSIDE 255

/* Reported as elected where no task is ready, and with NOT_A_TABLE and BAD_CONFIGURATION; as displaced where no task was pushed aside. */
#define TANKWESHO_NOBODY 255

enum tankwesho_operation {
    TANKWESHO_START = 0,    /* a task */
    TANKWESHO_STOP = 1,     /* a task */
    TANKWESHO_END = 2,
    TANKWESHO_SIGNAL = 3,   /* a event, b task */
    TANKWESHO_WAIT = 4,     /* a event list, b operator */
    TANKWESHO_CLEAR = 5,    /* a event list */
    TANKWESHO_ENTER = 6,    /* a region: its count goes one up, to 255 at most; or the caller waits for an open one of another's */
    TANKWESHO_EXIT = 7,     /* a region: one down; at 0 it is free, or handed on to the most urgent task that waits for it */
    TANKWESHO_SEND = 8,     /* a queue, b element, c criterion */
    TANKWESHO_RETRIEVE = 9, /* a queue, c criterion or TANKWESHO_LARGEST */
    TANKWESHO_ARM = 10,     /* a timer, b event, c delay */
    TANKWESHO_DISARM = 11,  /* a timer */
    TANKWESHO_TICK = 12     /* from the outside only */
};

enum tankwesho_query_number {
    TANKWESHO_ARRIVED = 0,  /* caller, a event list, b operator: 1 if the condition is met, else 0 */
    TANKWESHO_EMPTY = 1,    /* a queue: 1 if it holds nothing, else 0 */
    TANKWESHO_FULL = 2,     /* a queue: 1 if it is at its bound, else 0 */
    TANKWESHO_PRIORITY = 3, /* a task: its priority */
    TANKWESHO_STATE = 4     /* a task: one of the four states */
};

/* The operators of a list of events. */
enum tankwesho_operator { TANKWESHO_ALL = 0, TANKWESHO_ANY = 1 };

/* What the query STATE answers. */
enum tankwesho_state {
    TANKWESHO_STOPPED = 0,
    TANKWESHO_READY = 1,
    TANKWESHO_WAITING = 2,  /* for events */
    TANKWESHO_SUSPENDED = 3 /* waiting for a region; in a block such a task is stored as ready, with the region it waits for */
};

/* The mark of a region. Who holds a closed one is elected. An open one can be waited for, and doesn't stop preemption. */
enum tankwesho_mark { TANKWESHO_CLOSED = 0, TANKWESHO_OPEN = 1 };

/* RETRIEVE's c for the oldest element of the largest criterion present. */
#define TANKWESHO_LARGEST 16

/* 0 and 1 are accepted. From 10 on a call is refused, and has changed nothing. Where several apply, the first in this order is given: 10,
   11, 13, 12, 13 for a TICK by the elected task, 14, 19, 15, 16, 17, 18, 22, 23, 24, 25. */
enum tankwesho_status {
    TANKWESHO_DONE = 0,
    TANKWESHO_WAITS = 1,              /* a WAIT or an ENTER after which its caller waits */
    TANKWESHO_NOT_A_TABLE = 10,       /* wrong size, or not a valid table */
    TANKWESHO_NO_OPERATION = 11,      /* operation above 12, query above 4 */
    TANKWESHO_NOT_ELECTED = 12,       /* the caller is a task, and not the elected one */
    TANKWESHO_BARRED = 13,            /* from the outside and neither SIGNAL nor TICK; TICK by the elected task */
    TANKWESHO_MISSING = 14,           /* a task, event, region, queue, criterion, timer, event list or delay that doesn't exist */
    TANKWESHO_WRONG_STATE = 15,       /* START of a task not stopped, STOP or SIGNAL of a stopped one, another task's timer */
    TANKWESHO_IN_REGION = 16,         /* WAIT, END, STOP of oneself, or an ENTER that would wait, while a closed region is occupied; WAIT by
                                         a task that holds an open one */
    TANKWESHO_QUEUE_AT_BOUND = 17,    /* SEND */
    TANKWESHO_NONE_FITS = 18,         /* RETRIEVE */
    TANKWESHO_BAD_OPERATOR = 19,      /* above 1 */
    TANKWESHO_BAD_CONFIGURATION = 20, /* tankwesho_fresh */
    TANKWESHO_MALFORMED_LINE = 21,    /* the bench's alone: no function here gives it */
    TANKWESHO_ENTERED_TOO_OFTEN = 22, /* ENTER of a region that has been entered 255 times and not left */
    TANKWESHO_NOT_HELD = 23,          /* EXIT of a region that the caller doesn't hold */
    TANKWESHO_CLOSES_CIRCLE = 24,     /* ENTER of a region whose holder waits for the caller, itself or through others */
    TANKWESHO_HOLDS_OPEN = 25         /* STOP or END of a task that holds an open region */
};

/* What holds for all three functions.

   A block is block_length bytes that the caller lends: for tankwesho_fresh and tankwesho_call they can be written, and until the function
   returns nobody else reads or writes them. It needs no alignment. So: one call at a time on one block; calls on different blocks
   don't disturb each other, since nothing is kept outside the block. Queries alone may run side by side on one block.
   Nothing needs to be checked first: any bytes, any length and any numbers get their answer. A pointer must point to as many bytes as the
   length behind it says; with length 0 it is never followed, and may be null.
   Each returns an answer, one number of 64 bits; the five helpers below take it apart. */

/* Makes the table of a configuration in the block: task 0 is ready and elected, the others are stopped. It looks only at the block's size,
   never at what stands in it.
   priorities has an entry for each task, bounds one for each queue, marks one of enum tankwesho_mark for each region. Entries past the count
   aren't read. The block doesn't overlap any of them.
   DONE: elected is task 0.
   BAD_CONFIGURATION: a count is out of range (1 to 64 tasks, 0 to 16 regions, 0 to 8 queues), a list is shorter than its count, a bound
   isn't 1 to 64, or a mark isn't 0 or 1. The block is all 0, which is not a table.
   NOT_A_TABLE: block_length isn't TANKWESHO_BLOCK_SIZE; tested first. Nothing is written. A null block of length 0 gets it too. */
uint64_t tankwesho_fresh(uint8_t *block, size_t block_length, uint8_t tasks, uint8_t regions, uint8_t queues, const uint8_t *priorities,
                         size_t priorities_length, const uint8_t *bounds, size_t bounds_length, const uint8_t *marks,
                         size_t marks_length);

/* One call, by a task or by TANKWESHO_OUTSIDE. Of a, b and c those that the operation doesn't list aren't read.
   An accepted call leaves a table in the block. A refused one leaves every byte of it as it was.
   NOT_A_TABLE: block_length isn't TANKWESHO_BLOCK_SIZE, as for a null block of length 0, or the bytes aren't a valid table. */
uint64_t tankwesho_call(uint8_t *block, size_t block_length, uint8_t caller, uint8_t operation, uint32_t a, uint32_t b, uint32_t c);

/* One query. It writes nothing. Only ARRIVED reads caller and b. The reply is the answer's value, where the status is DONE.
   NOT_A_TABLE: as for tankwesho_call; NO_OPERATION comes behind it. */
uint64_t tankwesho_query(const uint8_t *block, size_t block_length, uint8_t query, uint8_t caller, uint32_t a, uint32_t b);

/* The parts of an answer: one of enum tankwesho_status; */
static inline uint8_t tankwesho_status(uint64_t answer)
{
    return (uint8_t)(answer & 255);
}

/* the elected task as it stands after the call, or TANKWESHO_NOBODY; */
static inline uint8_t tankwesho_elected(uint64_t answer)
{
    return (uint8_t)(answer >> 8 & 255);
}

/* the criterion of the element that RETRIEVE took, else 0; */
static inline uint8_t tankwesho_key(uint64_t answer)
{
    return (uint8_t)(answer >> 16 & 255);
}

/* the displaced task, whose registers are to be saved: it was elected before the call, is still ready and no longer elected. Else
   TANKWESHO_NOBODY, as with every refusal, every query and tankwesho_fresh; */
static inline uint8_t tankwesho_displaced(uint64_t answer)
{
    return (uint8_t)(answer >> 24 & 255);
}

/* the element that RETRIEVE took or the reply of a query, else 0. */
static inline uint32_t tankwesho_value(uint64_t answer)
{
    return (uint32_t)(answer >> 32);
}

#ifdef __cplusplus
}
#endif

#endif
