/* T-09 in calls: regions that can be waited for, and whose holder takes the urgency of who waits. What lines look like in a block is in
   blocks.c. */
#include "expect.h"

enum { CLOSED = TANKWESHO_CLOSED, OPEN = TANKWESHO_OPEN, SUSPENDED = TANKWESHO_SUSPENDED, READY = TANKWESHO_READY };

/* "ENTER of one held by another task suspends the caller (status 1). EXIT at count 0 gives it to its most urgent waiting task .., which holds
   it with count 1 and becomes ready." The task of 40 holds the region, and runs with 10 while the task of 10 waits. */
static void tournament(void)
{
    fresh_regions(HERE, (const uint8_t[]){40, 10, 20, 30}, 4, (const uint8_t[]){OPEN}, 1);
    CALL(0, ENTER, 0, 0, 0, 0, 0);
    CALL(0, ENTER, 0, 0, 0, 0, 0);
    for (unsigned task = 3; task > 0; task--) {
        PUSHES(0, START, task, 0, 0, task, 0);
        CALL(task, ENTER, 0, 0, 0, 1, 0);
        QUERY(STATE, 0, task, 0, 0, 0, SUSPENDED);
    }
    QUERY(STATE, 0, 0, 0, 0, 0, READY);
    /* PRIORITY stays the configured number. */
    QUERY(PRIORITY, 0, 0, 0, 0, 0, 40);
    CALL(0, EXIT, 0, 0, 0, 0, 0);
    PUSHES(0, EXIT, 0, 0, 0, 1, 0);
    QUERY(STATE, 0, 1, 0, 0, 1, READY);
    QUERY(STATE, 0, 2, 0, 0, 1, SUSPENDED);
    /* With count 1, so that one EXIT hands it on to the task of 20, and the next to the task of 30. */
    CALL(1, EXIT, 0, 0, 0, 0, 1);
    CALL(1, EXIT, 0, 0, 0, 23, 1);
    CALL(1, END, 0, 0, 0, 0, 2);
    CALL(2, EXIT, 0, 0, 0, 0, 2);
    CALL(2, END, 0, 0, 0, 0, 3);
    CALL(3, EXIT, 0, 0, 0, 0, 3);
    CALL(3, EXIT, 0, 0, 0, 23, 3);
    group_was_right("a line goes by urgency");
}

/* "through any chain": task 2 waits for task 1, which waits for task 0. Task 3, between them, doesn't come before task 0. */
static void chain(void)
{
    fresh_regions(HERE, (const uint8_t[]){9, 8, 1, 5}, 4, (const uint8_t[]){OPEN, OPEN}, 2);
    CALL(0, ENTER, 0, 0, 0, 0, 0);
    PUSHES(0, START, 1, 0, 0, 1, 0);
    CALL(1, ENTER, 1, 0, 0, 0, 1);
    CALL(1, ENTER, 0, 0, 0, 1, 0);
    PUSHES(0, START, 2, 0, 0, 2, 0);
    CALL(2, ENTER, 1, 0, 0, 1, 0);
    CALL(0, START, 3, 0, 0, 0, 0);
    PUSHES(0, EXIT, 0, 0, 0, 1, 0);
    PUSHES(1, EXIT, 1, 0, 0, 2, 1);
    /* Nobody waits any more, and an open region doesn't stop preemption: task 3 comes before task 1, which holds region 0. */
    CALL(2, EXIT, 1, 0, 0, 0, 2);
    CALL(2, END, 0, 0, 0, 0, 3);
    CALL(3, END, 0, 0, 0, 0, 1);
    CALL(1, EXIT, 0, 0, 0, 0, 1);
    CALL(1, END, 0, 0, 0, 0, 0);
    group_was_right("urgency through a chain");
}

/* "ENTER that would close a circle gets 24": two tasks that cross two regions, and four philosophers. */
static void circles(void)
{
    fresh_regions(HERE, (const uint8_t[]){2, 1}, 2, (const uint8_t[]){OPEN, OPEN}, 2);
    CALL(0, ENTER, 0, 0, 0, 0, 0);
    PUSHES(0, START, 1, 0, 0, 1, 0);
    CALL(1, ENTER, 1, 0, 0, 0, 1);
    CALL(1, ENTER, 0, 0, 0, 1, 0);
    CALL(0, ENTER, 1, 0, 0, 24, 0);
    PUSHES(0, EXIT, 0, 0, 0, 1, 0);

    fresh_regions(HERE, (const uint8_t[]){4, 3, 2, 1}, 4, (const uint8_t[]){OPEN, OPEN, OPEN, OPEN}, 4);
    for (unsigned task = 0; task < 4; task++) {
        CALL(task, ENTER, task, 0, 0, 0, task);
        if (task < 3)
            PUSHES(task, START, task + 1, 0, 0, task + 1, task);
    }
    CALL(3, ENTER, 0, 0, 0, 1, 0);
    CALL(0, ENTER, 1, 0, 0, 1, 1);
    CALL(1, ENTER, 2, 0, 0, 1, 2);
    CALL(2, ENTER, 3, 0, 0, 24, 2);
    group_was_right("circles");
}

/* "Document 01's 16 now counts closed regions only, and also covers WAIT by a holder of an open one and an ENTER that would suspend while a
   closed one is held"; "STOP or END of a task that holds an open region gets 25"; "24 and 25 come after 16". */
static void refusals(void)
{
    fresh_regions(HERE, (const uint8_t[]){5, 2}, 2, (const uint8_t[]){OPEN, CLOSED, OPEN}, 3);
    CALL(0, ENTER, 0, 0, 0, 0, 0);
    CALL(0, SIGNAL, 0, 0, 0, 0, 0);
    CALL(0, WAIT, 1, 0, 0, 16, 0);
    CALL(0, END, 0, 0, 0, 25, 0);
    CALL(0, STOP, 0, 0, 0, 25, 0);
    PUSHES(0, START, 1, 0, 0, 1, 0);
    CALL(1, STOP, 0, 0, 0, 25, 1);
    /* Task 1 holds none, and may wait for events while task 0 holds an open one. */
    CALL(1, WAIT, 2, 0, 0, 1, 0);
    PUSHES(OUTSIDE, SIGNAL, 1, 1, 0, 1, 0);
    CALL(1, ENTER, 2, 0, 0, 0, 1);
    CALL(1, ENTER, 1, 0, 0, 0, 1);
    CALL(1, ENTER, 0, 0, 0, 16, 1);
    CALL(1, END, 0, 0, 0, 16, 1);
    CALL(1, STOP, 1, 0, 0, 16, 1);
    CALL(1, STOP, 0, 0, 0, 25, 1);
    CALL(1, EXIT, 1, 0, 0, 0, 1);
    CALL(1, ENTER, 0, 0, 0, 1, 0);
    /* Task 1 waits for task 0: 16 inside the closed region, 24 outside. */
    CALL(0, ENTER, 1, 0, 0, 0, 0);
    CALL(0, ENTER, 2, 0, 0, 16, 0);
    CALL(0, EXIT, 1, 0, 0, 0, 0);
    CALL(0, ENTER, 2, 0, 0, 24, 0);
    CALL(0, EXIT, 2, 0, 0, 23, 0);
    group_was_right("what a holder may not do");
}

/* "a signal to such a task is only recorded"; START of it gets 15; "A stopped task leaves its line". */
static void in_line(void)
{
    fresh_regions(HERE, (const uint8_t[]){5, 2, 3}, 3, (const uint8_t[]){OPEN}, 1);
    CALL(0, ENTER, 0, 0, 0, 0, 0);
    PUSHES(0, START, 1, 0, 0, 1, 0);
    CALL(1, ARM, 0, 3, 1, 0, 1);
    CALL(1, ENTER, 0, 0, 0, 1, 0);
    CALL(0, START, 1, 0, 0, 15, 0);
    CALL(OUTSIDE, SIGNAL, 7, 1, 0, 0, 0);
    CALL(OUTSIDE, TICK, 0, 0, 0, 0, 0);
    QUERY(STATE, 0, 1, 0, 0, 0, SUSPENDED);
    PUSHES(0, EXIT, 0, 0, 0, 1, 0);
    QUERY(ARRIVED, 1, 1 << 7 | 1 << 3, TANKWESHO_ALL, 0, 1, 1);
    /* Task 1 waits again. While it does, task 2 doesn't come before task 0; stopped, it lends nothing, and the region goes to task 2. */
    CALL(1, EXIT, 0, 0, 0, 0, 1);
    CALL(1, WAIT, 1, 0, 0, 1, 0);
    CALL(0, ENTER, 0, 0, 0, 0, 0);
    PUSHES(OUTSIDE, SIGNAL, 0, 1, 0, 1, 0);
    CALL(1, ENTER, 0, 0, 0, 1, 0);
    CALL(0, START, 2, 0, 0, 0, 0);
    PUSHES(0, STOP, 1, 0, 0, 2, 0);
    QUERY(STATE, 0, 1, 0, 0, 2, TANKWESHO_STOPPED);
    CALL(2, ENTER, 0, 0, 0, 1, 0);
    PUSHES(0, EXIT, 0, 0, 0, 2, 0);
    CALL(2, EXIT, 0, 0, 0, 0, 2);
    CALL(2, EXIT, 0, 0, 0, 23, 2);
    group_was_right("a task in line");
}

void try_lines(void)
{
    tournament();
    chain();
    circles();
    refusals();
    in_line();
}
