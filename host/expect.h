/* What the firmware's checks share: one lent block, and calls on it whose whole answer is expected. */
#ifndef EXPECT_H
#define EXPECT_H

#include "tankwesho.h"

enum { SIZE = TANKWESHO_BLOCK_SIZE, OUTSIDE = TANKWESHO_OUTSIDE, NOBODY = TANKWESHO_NOBODY, LARGEST = TANKWESHO_LARGEST };

/* The block that is lent. */
extern uint8_t block[SIZE];

/* Where a check stands in the source. */
#define TEXT_OF(line) #line
#define AS_TEXT(line) TEXT_OF(line)
#define HERE __FILE__ ":" AS_TEXT(__LINE__)

/* Says that a group was right and how many answers and blocks it compared. */
void group_was_right(const char *name);

/* Ends the program if the answer isn't made of these parts, every bit of it. */
void same_answer(const char *where, uint64_t answer, unsigned status, unsigned elected, uint32_t value, unsigned key, unsigned displaced);

/* Ends the program at the first byte that differs. */
void same_bytes(const char *where, const uint8_t *expected, const uint8_t *came, size_t length);

/* A call, its answer, and if it is refused the block as it was. */
void call_at(const char *where, unsigned caller, unsigned operation, uint32_t a, uint32_t b, uint32_t c, unsigned status, unsigned elected,
             uint32_t value, unsigned key, unsigned displaced);

/* A query, its answer, and the block as it was. */
void query_at(const char *where, unsigned query, unsigned caller, uint32_t a, uint32_t b, unsigned status, unsigned elected, uint32_t value);

/* Document 01's bench examples: "Each starts fresh: priorities 5, 5, 2, two regions, one queue of bound 2." */
void fresh_example(void);

/* A fresh table without queues, of these priorities and marks. */
void fresh_regions(const char *where, const uint8_t *priorities, unsigned tasks, const uint8_t *marks, unsigned regions);

/* A call that gives no element and displaces nobody, an accepted one that displaces a task, a RETRIEVE that gives an element, and a query; an
   operation or query goes by its name without TANKWESHO_. */
#define CALL(caller, operation, a, b, c, status, elected) \
    call_at(HERE, caller, TANKWESHO_##operation, a, b, c, status, elected, 0, 0, NOBODY)
#define PUSHES(caller, operation, a, b, c, elected, displaced) \
    call_at(HERE, caller, TANKWESHO_##operation, a, b, c, 0, elected, 0, 0, displaced)
#define TAKES(caller, queue, c, elected, element, criterion) \
    call_at(HERE, caller, TANKWESHO_RETRIEVE, queue, 0, c, 0, elected, element, criterion, NOBODY)
#define QUERY(query, caller, a, b, status, elected, value) query_at(HERE, TANKWESHO_##query, caller, a, b, status, elected, value)

/* host/entries.c: T-04, the entries of a region. */
void try_entries(void);

/* host/lines.c: T-09, regions that can be waited for. */
void try_lines(void);

/* host/blocks.c: blocks made fresh, packed, damaged, and of other sizes. */
void try_blocks(void);

#endif
