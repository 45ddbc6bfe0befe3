/* Compares what came with what was expected, and ends the program at the first difference. */
#include <stdio.h>
#include <stdlib.h>
#include <string.h>
#include "expect.h"

uint8_t block[SIZE];

static unsigned long compared;

void group_was_right(const char *name)
{
    printf("right: %s (%lu comparisons)\n", name, compared);
    compared = 0;
}

void same_answer(const char *where, uint64_t answer, unsigned status, unsigned elected, uint32_t value, unsigned key, unsigned displaced)
{
    compared++;
    if (answer == ((uint64_t)value << 32 | (uint64_t)displaced << 24 | key << 16 | elected << 8 | status))
        return;
    printf("WRONG at %s: expected status %u, elected %u, key %u, value %lu, displaced %u\n", where, status, elected, key,
           (unsigned long)value, displaced);
    printf("came status %u, elected %u, key %u, value %lu, displaced %u; the whole answer %016llx\n", tankwesho_status(answer),
           tankwesho_elected(answer), tankwesho_key(answer), (unsigned long)tankwesho_value(answer), tankwesho_displaced(answer),
           (unsigned long long)answer);
    exit(1);
}

void same_bytes(const char *where, const uint8_t *expected, const uint8_t *came, size_t length)
{
    compared++;
    if (memcmp(expected, came, length) == 0)
        return;
    size_t i = 0;
    while (expected[i] == came[i])
        i++;
    printf("WRONG at %s: expected %u in byte %lu, came %u\n", where, expected[i], (unsigned long)i, came[i]);
    exit(1);
}

void call_at(const char *where, unsigned caller, unsigned operation, uint32_t a, uint32_t b, uint32_t c, unsigned status, unsigned elected,
             uint32_t value, unsigned key, unsigned displaced)
{
    uint8_t before[SIZE];
    memcpy(before, block, SIZE);
    uint64_t answer = tankwesho_call(block, SIZE, (uint8_t)caller, (uint8_t)operation, a, b, c);
    same_answer(where, answer, status, elected, value, key, displaced);
    if (status >= TANKWESHO_NOT_A_TABLE)
        same_bytes(where, before, block, SIZE);
}

void query_at(const char *where, unsigned query, unsigned caller, uint32_t a, uint32_t b, unsigned status, unsigned elected, uint32_t value)
{
    uint8_t before[SIZE];
    memcpy(before, block, SIZE);
    uint64_t answer = tankwesho_query(block, SIZE, (uint8_t)query, (uint8_t)caller, a, b);
    same_answer(where, answer, status, elected, value, 0, NOBODY);
    same_bytes(where, before, block, SIZE);
}

void fresh_example(void)
{
    static const uint8_t priorities[] = {5, 5, 2};
    static const uint8_t bounds[] = {2};
    static const uint8_t marks[] = {TANKWESHO_CLOSED, TANKWESHO_CLOSED};
    same_answer(HERE, tankwesho_fresh(block, SIZE, 3, 2, 1, priorities, 3, bounds, 1, marks, 2), TANKWESHO_DONE, 0, 0, 0, NOBODY);
}

void fresh_regions(const char *where, const uint8_t *priorities, unsigned tasks, const uint8_t *marks, unsigned regions)
{
    uint64_t answer = tankwesho_fresh(block, SIZE, (uint8_t)tasks, (uint8_t)regions, 0, priorities, tasks, NULL, 0, marks, regions);
    same_answer(where, answer, TANKWESHO_DONE, 0, 0, 0, NOBODY);
}
