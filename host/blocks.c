/* Blocks by their bytes: made fresh, packed after calls, damaged at every byte, and of other sizes. The places are those of
   docs/BLOCK.md; they stand here once more, by hand, so that a layout that moved would be seen. */
#include <stdio.h>
#include <string.h>
#include "expect.h"

enum { REGIONS = 1, QUEUES = 2, ELECTED = 3, PRIORITY = 4, STATE = 68, ARRIVED = 132, LIST = 260, OPERATOR = 388, AWAITS = 452,
       HOLDER = 516, ENTRIES = 532, OPENED = 548, BOUND = 564, LENGTH = 572, ELEMENT = 580, CRITERION = 2628, TICKS = 3140, TIMER = 3144,
       UNUSED = 3, DATE = 4, TIMER_WIDTH = 8 };

static uint8_t expected[SIZE];

static void put_32(int place, uint32_t number)
{
    for (int i = 0; i < 4; i++)
        expected[place + i] = (uint8_t)(number >> 8 * i);
}

static void same_block(const char *where)
{
    same_bytes(where, expected, block, SIZE);
}

/* ---- fresh */

static const uint8_t priorities[65] = {5, 0, 255, 7};
static const uint8_t bounds[9] = {1, 64, 3, 4, 5, 6, 7, 8, 0};
static const uint8_t marks[17] = {0, 1, 1, 0, 0, 0, 0, 0, 0, 0, 0, 0, 0, 0, 0, 1, 2};

/* A configuration on a block of 0xEE, which is no table: "Make fresh looks only at the size". */
static uint64_t configured(unsigned tasks, unsigned regions, unsigned queues, size_t priorities_length, size_t bounds_length,
                           size_t marks_length)
{
    memset(block, 0xEE, SIZE);
    return tankwesho_fresh(block, SIZE, (uint8_t)tasks, (uint8_t)regions, (uint8_t)queues, priorities, priorities_length, bounds,
                           bounds_length, marks, marks_length);
}

/* "its 20 leaves the block all 0", "which is not valid": a call on it gets 10. */
static void refused_with_20(const char *where, uint64_t answer)
{
    same_answer(where, answer, 20, NOBODY, 0, 0, NOBODY);
    memset(expected, 0, SIZE);
    same_block(where);
    call_at(where, 0, TANKWESHO_CLEAR, 1, 0, 0, 10, NOBODY, 0, 0, NOBODY);
}

static void fresh_blocks(void)
{
    /* "Task 0 is ready and elected, the others stopped, no event arrived, regions free, queues empty"; "counter 0, all idle". */
    same_answer(HERE, configured(4, 3, 2, 4, 2, 3), 0, 0, 0, 0, NOBODY);
    memset(expected, 0, SIZE);
    memcpy(expected, "\4\3\2\0" "\5\0\377\7", 8);
    expected[STATE] = TANKWESHO_READY;
    memcpy(expected + OPENED, "\0\1\1", 3);
    memcpy(expected + BOUND, "\1\100", 2);
    same_block(HERE);
    /* "Entries past a count aren't read": longer lists, and a bound of 0 or a mark of 2 past the count, make the same block. */
    same_answer(HERE, configured(4, 3, 2, 65, 9, 17), 0, 0, 0, 0, NOBODY);
    same_block(HERE);
    same_answer(HERE, tankwesho_fresh(block, SIZE, 1, 0, 0, priorities, 1, NULL, 0, NULL, 0), 0, 0, 0, 0, NOBODY);
    same_answer(HERE, configured(33, 16, 8, 33, 8, 16), 0, 0, 0, 0, NOBODY);
    same_answer(HERE, configured(64, 16, 8, 64, 8, 17), 0, 0, 0, 0, NOBODY);
    group_was_right("fresh");

    /* T-07: tasks 1 to 64. "Regions 0 to 16", "Queues 0 to 8", "a bound of 1 to 64"; "a list shorter than its count is out of range". */
    refused_with_20(HERE, configured(0, 3, 2, 4, 2, 3));
    refused_with_20(HERE, configured(65, 3, 2, 65, 2, 3));
    refused_with_20(HERE, configured(4, 17, 2, 4, 2, 17));
    refused_with_20(HERE, configured(4, 3, 9, 4, 9, 3));
    refused_with_20(HERE, configured(4, 3, 2, 3, 2, 3));
    refused_with_20(HERE, configured(4, 3, 2, 4, 1, 3));
    refused_with_20(HERE, configured(4, 3, 2, 4, 2, 2));
    refused_with_20(HERE, tankwesho_fresh(block, SIZE, 4, 3, 2, NULL, 0, bounds, 2, marks, 3));
    refused_with_20(HERE, tankwesho_fresh(block, SIZE, 4, 3, 2, priorities, 4, bounds, 2, NULL, 0));
    refused_with_20(HERE, tankwesho_fresh(block, SIZE, 4, 3, 2, priorities, 4, (const uint8_t *)"\1\0", 2, marks, 3));
    refused_with_20(HERE, tankwesho_fresh(block, SIZE, 4, 3, 2, priorities, 4, (const uint8_t *)"\1\101", 2, marks, 3));
    /* T-09: "00 closed or 01 open, else 20". */
    refused_with_20(HERE, tankwesho_fresh(block, SIZE, 4, 3, 2, priorities, 4, bounds, 2, (const uint8_t *)"\0\1\2", 3));
    refused_with_20(HERE, tankwesho_fresh(block, SIZE, 4, 3, 2, priorities, 4, bounds, 2, (const uint8_t *)"\377\1\0", 3));
    group_was_right("fresh refused");
}

/* ---- a block of known bytes */

/* Every operation but END, and every kind of part in use: task 0 holds regions 0 and 2, which it has entered once and twice, task 1
   waits, task 2 is ready, task 3 is stopped. */
static void busy_block(void)
{
    static const uint8_t priority[] = {5, 5, 2, 7};
    static const uint8_t bound[] = {3, 2};
    static const uint8_t closed[] = {0, 0, 0};
    same_answer(HERE, tankwesho_fresh(block, SIZE, 4, 3, 2, priority, 4, bound, 2, closed, 3), 0, 0, 0, 0, NOBODY);
    PUSHES(0, START, 2, 0, 0, 2, 0);
    CALL(OUTSIDE, TICK, 0, 0, 0, 0, 2);
    CALL(2, START, 1, 0, 0, 0, 2);
    CALL(2, STOP, 0, 0, 0, 0, 2);
    CALL(2, STOP, 2, 0, 0, 0, 1);
    CALL(1, ARM, 15, 1, 2147483647u, 0, 1);
    PUSHES(1, START, 0, 0, 0, 0, 1);
    CALL(OUTSIDE, SIGNAL, 0, 1, 0, 0, 0);
    CALL(0, WAIT, 512, 0, 0, 1, 1);
    CALL(1, WAIT, 259, TANKWESHO_ALL, 0, 1, NOBODY);
    CALL(OUTSIDE, TICK, 0, 0, 0, 0, NOBODY);
    CALL(OUTSIDE, SIGNAL, 9, 0, 0, 0, 0);
    CALL(0, ENTER, 0, 0, 0, 0, 0);
    CALL(0, ENTER, 1, 0, 0, 0, 0);
    CALL(0, ENTER, 2, 0, 0, 0, 0);
    CALL(0, ENTER, 2, 0, 0, 0, 0);
    CALL(0, ENTER, 2, 0, 0, 0, 0);
    CALL(0, EXIT, 1, 0, 0, 0, 0);
    CALL(0, EXIT, 2, 0, 0, 0, 0);
    CALL(0, START, 2, 0, 0, 0, 0);
    CALL(0, SIGNAL, 3, 2, 0, 0, 0);
    CALL(0, SEND, 0, 99, 15, 0, 0);
    CALL(0, SEND, 0, 0x01020304, 3, 0, 0);
    CALL(0, SEND, 0, 0xA0B0C0D0, 9, 0, 0);
    TAKES(0, 0, LARGEST, 0, 99, 15);
    CALL(0, ARM, 1, 4, 300, 0, 0);
    CALL(0, ARM, 0, 4, 300, 0, 0);
    CALL(0, DISARM, 0, 0, 0, 0, 0);
    CALL(0, CLEAR, 1, 0, 0, 0, 0);
}

/* The same, byte by byte. */
static void busy_bytes(void)
{
    memset(expected, 0, SIZE);
    memcpy(expected, "\4\3\2\0" "\5\5\2\7", 8);
    memcpy(expected + STATE, "\1\2\1\0", 4);
    memcpy(expected + ARRIVED, "\0\2" "\1\0" "\10\0", 6);
    memcpy(expected + LIST, "\0\0" "\3\1", 4);
    memcpy(expected + HOLDER, "\1\0\1", 3);
    memcpy(expected + ENTRIES, "\1\0\2", 3);
    memcpy(expected + BOUND, "\3\2", 2);
    expected[LENGTH] = 2;
    memcpy(expected + ELEMENT, "\4\3\2\1" "\320\300\260\240", 8);
    memcpy(expected + CRITERION, "\3\11", 2);
    put_32(TICKS, 2);
    /* Timer 1, by task 0 for event 4; timer 15, by task 1 for event 1, armed when the counter was 1. */
    memcpy(expected + TIMER + 1 * TIMER_WIDTH, "\1\0\4\0", 4);
    put_32(TIMER + 1 * TIMER_WIDTH + DATE, 302);
    memcpy(expected + TIMER + 15 * TIMER_WIDTH, "\1\1\1\0", 4);
    put_32(TIMER + 15 * TIMER_WIDTH + DATE, 2147483648u);
}

/* ---- one byte changed */

/* In the places `from` to `to` the values `least` to `most` make another valid table. */
struct allowed {
    int from, to;
    unsigned least, most;
};

static const struct allowed in_busy[] = {
    {0, 0, 4, 64},                                        /* more tasks: they are stopped, and of priority 0 */
    {REGIONS, REGIONS, 3, 16},                            /* more regions, free */
    {PRIORITY, PRIORITY + 3, 0, 255},                     /* "the holder if any region is occupied": no priority is asked */
    {STATE + 3, STATE + 3, 0, 1},                         /* the stopped task made ready */
    {ARRIVED, ARRIVED + 5, 0, 255},                       /* events of tasks that aren't stopped; task 1's condition is met by no one byte */
    {LIST + 2, LIST + 3, 0, 255},                         /* task 1 waits for others, and not all of them have arrived */
    {ENTRIES, ENTRIES, 1, 255}, {ENTRIES + 2, ENTRIES + 2, 1, 255}, /* "1 to 255" where there is a holder; no holder changes alone */
    {OPENED, OPENED + 2, 0, 1},                           /* one of them open: another one that is held stays closed */
    {BOUND, BOUND, 2, 64}, {BOUND + 1, BOUND + 1, 1, 64}, /* no less than the length */
    {LENGTH, LENGTH, 2, 3}, {LENGTH + 1, LENGTH + 1, 0, 2}, /* elements 0 of criterion 0, up to the bound */
    {ELEMENT, ELEMENT + 7, 0, 255},                       /* any elements of the two there are */
    {CRITERION, CRITERION + 1, 0, 15},                    /* and any criteria */
    {TICKS, TICKS, 1, 255}, {TICKS + 1, TICKS + 1, 0, 1}, /* from 1, where timer 15 is 2147483647 ahead, to 258; 514 is past timer 1 */
    {TIMER + 9, TIMER + 9, 0, 2}, {TIMER + 10, TIMER + 10, 0, 15}, /* timer 1 of a task that isn't stopped, for any event */
    {TIMER + 12, TIMER + 14, 0, 255}, {TIMER + 15, TIMER + 15, 0, 127}, /* its date 44 to 2147483647 ahead */
    {TIMER + 121, TIMER + 121, 0, 2}, {TIMER + 122, TIMER + 122, 0, 15}, /* timer 15 likewise, */
    {TIMER + 124, TIMER + 124, 0, 1}, {TIMER + 127, TIMER + 127, 1, 128}, /* which has at most one tick to add */
};

/* Document 01's example with all three tasks ready: no region is held, and task 2 is elected by its priority. */
static const struct allowed in_free[] = {
    {0, 0, 3, 64},
    {REGIONS, REGIONS, 0, 16},            /* fewer or more: all are free */
    {PRIORITY, PRIORITY + 1, 3, 255},     /* "of equals the lowest task number": with 2 task 0 or 1 would be elected */
    {PRIORITY + 2, PRIORITY + 2, 0, 4},   /* with 5 task 0 would be elected */
    {STATE, STATE + 1, 0, 1},             /* another task stopped */
    {ARRIVED, ARRIVED + 5, 0, 255},
    {OPENED, OPENED + 1, 0, 1},           /* nobody holds them or waits for them */
    {BOUND, BOUND, 1, 64},
    {LENGTH, LENGTH, 0, 2},
    {TICKS, TICKS + 3, 0, 255},           /* no timer is armed */
};

/* Tasks 0 and 1 hold the open regions 0 and 1; task 1 waits for region 0, task 2 for region 1; task 3 is ready. Region 2 is open, region 3
   closed, and nobody holds them. Priorities 7, 5, 2, 3: task 0 is elected, as urgent as task 2. */
static void lined_block(void)
{
    static const uint8_t priority[] = {7, 5, 2, 3};
    static const uint8_t mark[] = {1, 1, 1, 0};
    fresh_regions(HERE, priority, 4, mark, 4);
    CALL(0, ENTER, 0, 0, 0, 0, 0);
    PUSHES(0, START, 1, 0, 0, 1, 0);
    CALL(1, ENTER, 1, 0, 0, 0, 1);
    CALL(1, ENTER, 0, 0, 0, 1, 0);
    PUSHES(0, START, 2, 0, 0, 2, 0);
    CALL(2, ENTER, 1, 0, 0, 1, 0);
    CALL(0, START, 3, 0, 0, 0, 0);
    memset(expected, 0, SIZE);
    memcpy(expected, "\4\4\0\0" "\7\5\2\3", 8);
    memcpy(expected + STATE, "\1\1\1\1", 4);
    memcpy(expected + AWAITS, "\0\1\2\0", 4);
    memcpy(expected + HOLDER, "\1\2\0\0", 4);
    memcpy(expected + ENTRIES, "\1\1\0\0", 4);
    memcpy(expected + OPENED, "\1\1\1\0", 4);
    same_block(HERE);
}

static const struct allowed in_lined[] = {
    {0, 0, 4, 64},
    {REGIONS, REGIONS, 3, 16},            /* region 3 is closed and free, so all 0 */
    {PRIORITY, PRIORITY + 1, 0, 255},     /* task 2 lends its 2 in any case */
    {PRIORITY + 2, PRIORITY + 2, 0, 3},   /* with 3 task 0 is as urgent as task 3, and of the lower number; with 4 task 3 would be elected */
    {PRIORITY + 3, PRIORITY + 3, 2, 255}, /* likewise */
    {STATE + 3, STATE + 3, 0, 1},
    {ARRIVED, ARRIVED + 7, 0, 255},       /* "a signal to such a task is only recorded" */
    {AWAITS + 2, AWAITS + 2, 1, 2},       /* task 2 waits for region 0 as well as for region 1; with 0 it would be elected */
    {AWAITS + 3, AWAITS + 3, 0, 2},       /* task 3 in a line; tasks 0 and 1 in another one would close a circle or be elected */
    {HOLDER + 1, HOLDER + 1, 1, 2},       /* task 0 holds both: it stays as urgent */
    {ENTRIES, ENTRIES + 1, 1, 255},
    {OPENED + 2, OPENED + 3, 0, 1},       /* "a state 3 task waits for one occupied open region": not those that are waited for */
    {TICKS, TICKS + 3, 0, 255},
};

static int is_allowed(const struct allowed *rows, int count, int place, unsigned value)
{
    for (int i = 0; i < count; i++)
        if (rows[i].from <= place && place <= rows[i].to && rows[i].least <= value && value <= rows[i].most)
            return 1;
    return 0;
}

/* Every byte of the block set to every other value. Operation 13 and query 5 get 11 from a valid table, whatever it holds, and 10 goes
   before 11: so they tell which it is, and change neither. */
static void each_byte_changed(const struct allowed *rows, int count)
{
    unsigned elected = block[ELECTED];
    for (int place = 0; place < SIZE; place++) {
        uint8_t kept = block[place];
        for (unsigned value = 0; value < 256; value++) {
            int valid = value == kept || is_allowed(rows, count, place, value);
            unsigned status = valid ? 11 : 10, reported = valid ? elected : NOBODY;
            char where[80];
            snprintf(where, sizeof where, "%s, byte %d set to %u", HERE, place, value);
            block[place] = (uint8_t)value;
            call_at(where, OUTSIDE, 13, 0, 0, 0, status, reported, 0, 0, NOBODY);
            query_at(where, 5, 0, 0, 0, status, reported, 0);
        }
        block[place] = kept;
    }
}

/* A region's holder and count set to every pair: "a region counts its entries, 1 to 255", "A free region has count 0". The holders, as they
   are stored, that will do are `least` to `most`, none where that is past them. */
static void each_pair_of_region(int region, int may_be_free, unsigned least, unsigned most)
{
    unsigned elected = block[ELECTED];
    uint8_t kept_holder = block[HOLDER + region], kept_count = block[ENTRIES + region];
    for (unsigned holder = 0; holder < 256; holder++)
        for (unsigned count = 0; count < 256; count++) {
            int held = least <= holder && holder <= most && count > 0;
            int valid = held || (may_be_free && holder == 0 && count == 0);
            char where[80];
            snprintf(where, sizeof where, "%s, region %d with holder %u and count %u", HERE, region, holder, count);
            block[HOLDER + region] = (uint8_t)holder;
            block[ENTRIES + region] = (uint8_t)count;
            call_at(where, OUTSIDE, 13, 0, 0, 0, valid ? 11 : 10, valid ? elected : NOBODY, 0, 0, NOBODY);
        }
    block[HOLDER + region] = kept_holder;
    block[ENTRIES + region] = kept_count;
}

static void damaged(const char *where, int place, unsigned value)
{
    uint8_t kept = block[place];
    block[place] = (uint8_t)value;
    call_at(where, OUTSIDE, 13, 0, 0, 0, 10, NOBODY, 0, 0, NOBODY);
    block[place] = kept;
}

/* Rules that the two blocks above don't reach with one byte. */
static void other_damage(void)
{
    /* The holder "is ready": not stopped, and not waiting. */
    fresh_example();
    CALL(0, ENTER, 0, 0, 0, 0, 0);
    damaged(HERE, STATE, TANKWESHO_STOPPED);
    damaged(HERE, STATE, TANKWESHO_WAITING);
    /* "Waiting: a list that isn't empty, an operator, and a condition not yet met." */
    fresh_example();
    CALL(0, WAIT, 1, TANKWESHO_ANY, 0, 1, NOBODY);
    damaged(HERE, OPERATOR, 2);
    damaged(HERE, LIST, 0);
    damaged(HERE, ARRIVED, 1);
    damaged(HERE, STATE, TANKWESHO_READY);
    /* "else 255, exactly if no task is ready" */
    damaged(HERE, ELECTED, 0);
    damaged(HERE, STATE + 1, TANKWESHO_READY);
    /* "its date lies 1 to 2147483647 ticks ahead": not 0. */
    fresh_example();
    CALL(0, ARM, 0, 0, 1, 0, 0);
    damaged(HERE, TICKS, 1);
    damaged(HERE, TIMER + DATE, 0);
    group_was_right("other damage");
}

static void packed_and_damaged(void)
{
    busy_block();
    busy_bytes();
    same_block(HERE);
    group_was_right("a busy block, byte by byte");
    each_byte_changed(in_busy, sizeof in_busy / sizeof *in_busy);
    group_was_right("every byte of it changed");
    /* Closed regions: the elected task alone will do. Past the number of regions both are 0. */
    for (int region = 0; region < 4; region++)
        each_pair_of_region(region, 1, 1, region < 3 ? 1 : 0);
    group_was_right("every holder and count of its three regions, and of one more");
    lined_block();
    each_byte_changed(in_lined, sizeof in_lined / sizeof *in_lined);
    group_was_right("every byte of a block with two lines changed");
    /* Region 0 stays task 0's, since any other holder would wait for itself or be elected; region 1 may be task 0's; region 2, which is open and
       which nobody waits for, anybody's that isn't stopped; region 3, which is closed, the elected task's. */
    each_pair_of_region(0, 0, 1, 1);
    each_pair_of_region(1, 0, 1, 2);
    each_pair_of_region(2, 1, 1, 4);
    each_pair_of_region(3, 1, 1, 1);
    each_pair_of_region(4, 1, 1, 0);
    group_was_right("every holder and count of its regions");
    fresh_example();
    CALL(0, START, 1, 0, 0, 0, 0);
    PUSHES(0, START, 2, 0, 0, 2, 0);
    each_byte_changed(in_free, sizeof in_free / sizeof *in_free);
    group_was_right("every byte of a block without held regions changed");
    for (int region = 0; region < 16; region++)
        each_pair_of_region(region, 1, 3, region < 2 ? 3 : 0);
    group_was_right("every holder and count of its two regions, and past them");

    /* "A block … not a valid table gets 10 and isn't touched", whatever is called, and before 11, 12, 13 and 14. */
    block[TIMER + UNUSED] = 1;
    for (unsigned operation = 0; operation < 256; operation++)
        call_at(HERE, operation % 2 ? OUTSIDE : 2, operation, 99, 99, 99, 10, NOBODY, 0, 0, NOBODY);
    for (unsigned query = 0; query < 256; query++)
        query_at(HERE, query, 2, 99, 99, 10, NOBODY, 0);
    group_was_right("every call and query on a damaged block");
}

/* T-01: "The tick counter has 32 bits and starts again at 0; a timer is due when the counter, so wrapped, reaches its date." */
static void counter_starts_again(void)
{
    fresh_example();
    memcpy(block + TICKS, "\376\377\377\377", 4);
    CALL(0, ARM, 3, 6, 3, 0, 0);
    memcpy(expected, block, SIZE);
    put_32(TIMER + 3 * TIMER_WIDTH + DATE, 1);
    same_block(HERE);
    CALL(0, WAIT, 64, 0, 0, 1, NOBODY);
    CALL(OUTSIDE, TICK, 0, 0, 0, 0, NOBODY);
    CALL(OUTSIDE, TICK, 0, 0, 0, 0, NOBODY);
    CALL(OUTSIDE, TICK, 0, 0, 0, 0, 0);
    same_bytes(HERE, (const uint8_t *)"\1\0\0\0", block + TICKS, 4);
    group_was_right("the counter starts again at 0");
}

/* "A block of wrong size … gets 10 and isn't touched": whatever stands in it, and whatever is asked. So do the sizes before T-04, when
   regions had no counts, before T-07, when there were at most 32 tasks, and before T-09, when no region could be waited for. */
static void other_sizes(void)
{
    enum { BEFORE_T_04 = 2952, BEFORE_T_07 = 2968, BEFORE_T_09 = 3192 };
    static uint8_t room[2 * SIZE], before[2 * SIZE];
    static const size_t sizes[] = {0, 1, 3, 4, SIZE / 2, BEFORE_T_04, BEFORE_T_07, BEFORE_T_09, SIZE - 8, SIZE - 1, SIZE + 1, SIZE + 8, SIZE + 16,
                                   2 * SIZE};
    fresh_example();
    memcpy(room, block, SIZE);
    memcpy(before, room, sizeof room);
    for (size_t i = 0; i < sizeof sizes / sizeof *sizes; i++) {
        same_answer(HERE, tankwesho_fresh(room, sizes[i], 4, 3, 2, priorities, 4, bounds, 2, marks, 3), 10, NOBODY, 0, 0, NOBODY);
        same_answer(HERE, tankwesho_fresh(room, sizes[i], 0, 99, 99, priorities, 0, bounds, 0, marks, 0), 10, NOBODY, 0, 0, NOBODY);
        for (unsigned operation = 0; operation < 256; operation++)
            same_answer(HERE, tankwesho_call(room, sizes[i], 0, (uint8_t)operation, 1, 0, 1), 10, NOBODY, 0, 0, NOBODY);
        for (unsigned query = 0; query < 256; query++)
            same_answer(HERE, tankwesho_query(room, sizes[i], (uint8_t)query, 0, 1, 0), 10, NOBODY, 0, 0, NOBODY);
        same_bytes(HERE, before, room, sizeof room);
    }
    same_answer(HERE, tankwesho_fresh(NULL, 0, 4, 3, 2, priorities, 4, bounds, 2, marks, 3), 10, NOBODY, 0, 0, NOBODY);
    same_answer(HERE, tankwesho_fresh(NULL, 0, 0, 0, 0, NULL, 0, NULL, 0, NULL, 0), 10, NOBODY, 0, 0, NOBODY);
    same_answer(HERE, tankwesho_call(NULL, 0, 0, TANKWESHO_CLEAR, 1, 0, 0), 10, NOBODY, 0, 0, NOBODY);
    same_answer(HERE, tankwesho_query(NULL, 0, TANKWESHO_STATE, 0, 0, 0), 10, NOBODY, 0, 0, NOBODY);
    group_was_right("blocks of other sizes");
}

void try_blocks(void)
{
    fresh_blocks();
    packed_and_damaged();
    other_damage();
    counter_starts_again();
    other_sizes();
}
