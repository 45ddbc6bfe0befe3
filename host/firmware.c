/* Plays a table's firmware over include/tankwesho.h: lends a block, makes it fresh, and calls and queries it. Each expectation is worked
   out from document 01, T-01, T-04, T-08 or T-09 and stands under its sentence. Ends with 1 at the first wrong answer or byte. */
#include <stdio.h>
#include "expect.h"

/* The header's names against the numbers of document 01, T-01, T-04, T-06 and T-09. */
static void names(void)
{
    static const uint8_t operations[] = {TANKWESHO_START, TANKWESHO_STOP, TANKWESHO_END, TANKWESHO_SIGNAL, TANKWESHO_WAIT, TANKWESHO_CLEAR,
                                         TANKWESHO_ENTER, TANKWESHO_EXIT, TANKWESHO_SEND, TANKWESHO_RETRIEVE, TANKWESHO_ARM,
                                         TANKWESHO_DISARM, TANKWESHO_TICK};
    static const uint8_t queries[] = {TANKWESHO_ARRIVED, TANKWESHO_EMPTY, TANKWESHO_FULL, TANKWESHO_PRIORITY, TANKWESHO_STATE};
    static const uint8_t statuses[] = {TANKWESHO_DONE, TANKWESHO_WAITS, TANKWESHO_NOT_A_TABLE, TANKWESHO_NO_OPERATION, TANKWESHO_NOT_ELECTED,
                                       TANKWESHO_BARRED, TANKWESHO_MISSING, TANKWESHO_WRONG_STATE, TANKWESHO_IN_REGION,
                                       TANKWESHO_QUEUE_AT_BOUND, TANKWESHO_NONE_FITS, TANKWESHO_BAD_OPERATOR, TANKWESHO_BAD_CONFIGURATION,
                                       TANKWESHO_MALFORMED_LINE, TANKWESHO_ENTERED_TOO_OFTEN, TANKWESHO_NOT_HELD, TANKWESHO_CLOSES_CIRCLE,
                                       TANKWESHO_HOLDS_OPEN};
    static const uint8_t states[] = {TANKWESHO_STOPPED, TANKWESHO_READY, TANKWESHO_WAITING, TANKWESHO_SUSPENDED};
    static const uint8_t marks[] = {TANKWESHO_CLOSED, TANKWESHO_OPEN};
    same_bytes(HERE, (const uint8_t[]){0, 1, 2, 3, 4, 5, 6, 7, 8, 9, 10, 11, 12}, operations, sizeof operations);
    same_bytes(HERE, (const uint8_t[]){0, 1, 2, 3, 4}, queries, sizeof queries);
    same_bytes(HERE, (const uint8_t[]){0, 1, 10, 11, 12, 13, 14, 15, 16, 17, 18, 19, 20, 21, 22, 23, 24, 25}, statuses, sizeof statuses);
    same_bytes(HERE, (const uint8_t[]){0, 1, 2, 3}, states, sizeof states);
    same_bytes(HERE, (const uint8_t[]){0, 1}, marks, sizeof marks);
    group_was_right("the header's names");
}

/* "P1: task 0 STARTs 2: elected 2. STARTing 1 instead: elected 0." and so on to PO5, with the example that the bench has whole. */
static void documents_examples(void)
{
    fresh_example();
    PUSHES(0, START, 2, 0, 0, 2, 0);
    CALL(OUTSIDE, SIGNAL, 0, 1, 0, 15, 2);
    group_was_right("the whole example");

    fresh_example();
    PUSHES(0, START, 2, 0, 0, 2, 0);
    fresh_example();
    CALL(0, START, 1, 0, 0, 0, 0);
    group_was_right("P1");

    /* "ENTER 0, START 2: elected 0; EXIT 0: elected 2." */
    fresh_example();
    CALL(0, ENTER, 0, 0, 0, 0, 0);
    CALL(0, START, 2, 0, 0, 0, 0);
    PUSHES(0, EXIT, 0, 0, 0, 2, 0);
    group_was_right("P2");

    /* "WAIT list 3 all: status 1, elected 255. Outside SIGNAL 0 to task 0: still 255; SIGNAL 1: elected 0, events 3. With any, the first
       signal elects 0." */
    fresh_example();
    CALL(0, WAIT, 3, TANKWESHO_ALL, 0, 1, NOBODY);
    CALL(OUTSIDE, SIGNAL, 0, 0, 0, 0, NOBODY);
    CALL(OUTSIDE, SIGNAL, 1, 0, 0, 0, 0);
    QUERY(ARRIVED, 0, 3, TANKWESHO_ALL, 0, 0, 1);
    QUERY(ARRIVED, 0, 65532, TANKWESHO_ANY, 0, 0, 0);
    fresh_example();
    CALL(0, WAIT, 3, TANKWESHO_ANY, 0, 1, NOBODY);
    CALL(OUTSIDE, SIGNAL, 0, 0, 0, 0, 0);
    group_was_right("P3");

    /* "SEND (11, 3), (12, 9): 0; (13, 3): 17. RETRIEVE 16: 12, key 9. RETRIEVE 3: 11. Again: 18." */
    fresh_example();
    CALL(0, SEND, 0, 11, 3, 0, 0);
    CALL(0, SEND, 0, 12, 9, 0, 0);
    CALL(0, SEND, 0, 13, 3, 17, 0);
    TAKES(0, 0, LARGEST, 0, 12, 9);
    TAKES(0, 0, 3, 0, 11, 3);
    CALL(0, RETRIEVE, 0, 0, 3, 18, 0);
    group_was_right("P4");

    /* "caller 1 with operation 10: 11; with operation 6: 12. Outside START: 13."; T-01: "Status 11 now begins at operation 13". */
    fresh_example();
    call_at(HERE, 1, 13, 0, 0, 0, 11, 0, 0, 0, NOBODY);
    CALL(1, ENTER, 0, 0, 0, 12, 0);
    CALL(OUTSIDE, START, 1, 0, 0, 13, 0);
    group_was_right("P5");
}

/* "Order matters (O), own call first against outside SIGNAL of event 0 first." */
static void order_matters(void)
{
    /* "PO1: START 1, signal to 1: signal's status 0 or 15." */
    fresh_example();
    CALL(0, START, 1, 0, 0, 0, 0);
    CALL(OUTSIDE, SIGNAL, 0, 1, 0, 0, 0);
    fresh_example();
    CALL(OUTSIDE, SIGNAL, 0, 1, 0, 15, 0);
    CALL(0, START, 1, 0, 0, 0, 0);

    /* "PO2: after START 1, STOP 1, signal to 1: 15 or 0." */
    fresh_example();
    CALL(0, START, 1, 0, 0, 0, 0);
    CALL(0, STOP, 1, 0, 0, 0, 0);
    CALL(OUTSIDE, SIGNAL, 0, 1, 0, 15, 0);
    fresh_example();
    CALL(0, START, 1, 0, 0, 0, 0);
    CALL(OUTSIDE, SIGNAL, 0, 1, 0, 0, 0);
    CALL(0, STOP, 1, 0, 0, 0, 0);

    /* "PO3: END, signal to 0: 15 or 0." */
    fresh_example();
    CALL(0, END, 0, 0, 0, 0, NOBODY);
    CALL(OUTSIDE, SIGNAL, 0, 0, 0, 15, NOBODY);
    fresh_example();
    CALL(OUTSIDE, SIGNAL, 0, 0, 0, 0, 0);
    CALL(0, END, 0, 0, 0, 0, NOBODY);

    /* "PO4: WAIT 1 all, signal to 0: WAIT's status 1 or 0." */
    fresh_example();
    CALL(0, WAIT, 1, TANKWESHO_ALL, 0, 1, NOBODY);
    CALL(OUTSIDE, SIGNAL, 0, 0, 0, 0, 0);
    fresh_example();
    CALL(OUTSIDE, SIGNAL, 0, 0, 0, 0, 0);
    CALL(0, WAIT, 1, TANKWESHO_ALL, 0, 0, 0);

    /* "PO5: CLEAR 1, signal to 0: events 1 or 0." */
    fresh_example();
    CALL(0, CLEAR, 1, 0, 0, 0, 0);
    CALL(OUTSIDE, SIGNAL, 0, 0, 0, 0, 0);
    QUERY(ARRIVED, 0, 1, TANKWESHO_ALL, 0, 0, 1);
    fresh_example();
    CALL(OUTSIDE, SIGNAL, 0, 0, 0, 0, 0);
    CALL(0, CLEAR, 1, 0, 0, 0, 0);
    QUERY(ARRIVED, 0, 65535, TANKWESHO_ANY, 0, 0, 0);
    group_was_right("PO1 to PO5");
}

static void edges(void)
{
    /* "WAIT list 65535 passes the check, 65536 and 0 get 14; list 0 with operator 2 gets 14; list 1 with operator 2 gets 19." */
    fresh_example();
    CALL(0, WAIT, 65536, 0, 0, 14, 0);
    CALL(0, WAIT, 0, 0, 0, 14, 0);
    CALL(0, WAIT, 0, 2, 0, 14, 0);
    CALL(0, WAIT, 1, 2, 0, 19, 0);
    CALL(0, CLEAR, 0, 0, 0, 14, 0);
    CALL(0, CLEAR, 65536, 0, 0, 14, 0);
    CALL(0, WAIT, 65535, 0, 0, 1, NOBODY);
    /* "Event 15 exists, 16 gets 14." */
    CALL(OUTSIDE, SIGNAL, 15, 0, 0, 0, NOBODY);
    CALL(OUTSIDE, SIGNAL, 16, 0, 0, 14, NOBODY);
    /* "ENTER 0 then WAIT 1: 16." */
    fresh_example();
    CALL(0, ENTER, 0, 0, 0, 0, 0);
    CALL(0, WAIT, 1, 0, 0, 16, 0);
    group_was_right("the unmarked examples");

    /* "a task, event, region, queue or criterion that doesn't exist": one past the last of each, and a number whose low byte exists. */
    fresh_example();
    CALL(0, START, 3, 0, 0, 14, 0);
    CALL(0, START, 257, 0, 0, 14, 0);
    CALL(0, STOP, 3, 0, 0, 14, 0);
    CALL(0, SIGNAL, 0, 3, 0, 14, 0);
    CALL(0, SIGNAL, 256, 0, 0, 14, 0);
    CALL(0, ENTER, 2, 0, 0, 14, 0);
    CALL(0, EXIT, 2, 0, 0, 14, 0);
    CALL(0, SEND, 1, 0, 0, 14, 0);
    CALL(0, SEND, 0, 0, 16, 14, 0);
    CALL(0, RETRIEVE, 1, 0, 0, 14, 0);
    CALL(0, RETRIEVE, 0, 0, 17, 14, 0);
    CALL(0, ARM, 16, 0, 1, 14, 0);
    CALL(0, ARM, 0, 16, 1, 14, 0);
    CALL(0, DISARM, 16, 0, 0, 14, 0);
    /* T-01: "delay 1 to 2147483647". */
    CALL(0, ARM, 0, 0, 0, 14, 0);
    CALL(0, ARM, 0, 0, 2147483648u, 14, 0);
    CALL(0, ARM, 0, 0, 2147483647u, 0, 0);
    /* "caller not 255 and not the elected task": also a caller that is no task. */
    CALL(3, CLEAR, 1, 0, 0, 12, 0);
    CALL(254, CLEAR, 1, 0, 0, 12, 0);
    call_at(HERE, 0, 255, 0, 0, 0, 11, 0, 0, 0, NOBODY);
    group_was_right("what doesn't exist");
}

static void tasks_and_events(void)
{
    /* "START: stopped becomes ready"; "START of a task not stopped" is 15. */
    fresh_example();
    CALL(0, START, 1, 0, 0, 0, 0);
    QUERY(STATE, 0, 1, 0, 0, 0, TANKWESHO_READY);
    CALL(0, START, 1, 0, 0, 15, 0);
    /* "STOP: becomes stopped, events … cleared"; "no event arrived" when it starts again. */
    CALL(0, SIGNAL, 3, 1, 0, 0, 0);
    CALL(0, STOP, 1, 0, 0, 0, 0);
    QUERY(STATE, 0, 1, 0, 0, 0, TANKWESHO_STOPPED);
    CALL(0, STOP, 1, 0, 0, 15, 0);
    CALL(0, START, 1, 0, 0, 0, 0);
    /* "may be the caller"; of the two left, task 1 alone is ready. */
    CALL(0, STOP, 0, 0, 0, 0, 1);
    QUERY(ARRIVED, 1, 8, 0, 0, 1, 0);
    /* "a waiting task whose condition is now met becomes ready"; "Waking doesn't clear events." */
    CALL(1, WAIT, 3, TANKWESHO_ANY, 0, 1, NOBODY);
    QUERY(STATE, 0, 1, 0, 0, NOBODY, TANKWESHO_WAITING);
    CALL(OUTSIDE, SIGNAL, 2, 1, 0, 0, NOBODY);
    CALL(OUTSIDE, SIGNAL, 1, 1, 0, 0, 1);
    CALL(1, WAIT, 6, TANKWESHO_ALL, 0, 0, 1);
    CALL(1, CLEAR, 2, 0, 0, 0, 1);
    QUERY(ARRIVED, 1, 6, TANKWESHO_ALL, 0, 1, 0);
    QUERY(ARRIVED, 1, 6, TANKWESHO_ANY, 0, 1, 1);
    /* "END: as STOP of the caller"; then nobody is left who could start another. */
    CALL(1, END, 0, 0, 0, 0, NOBODY);
    CALL(OUTSIDE, START, 1, 0, 0, 13, NOBODY);
    CALL(1, START, 1, 0, 0, 12, NOBODY);
    group_was_right("tasks and events");
}

static void regions_and_queues(void)
{
    /* "WAIT, END or STOP of oneself while any region is occupied"; STOP of another is none of these. */
    fresh_example();
    CALL(0, START, 1, 0, 0, 0, 0);
    CALL(0, ENTER, 1, 0, 0, 0, 0);
    CALL(0, END, 0, 0, 0, 16, 0);
    CALL(0, STOP, 0, 0, 0, 16, 0);
    CALL(0, WAIT, 1, 0, 0, 16, 0);
    CALL(0, WAIT, 1, 2, 0, 19, 0);
    CALL(0, STOP, 1, 0, 0, 0, 0);
    /* "START and SIGNAL inside a region are allowed and the election takes effect at the last EXIT." */
    CALL(0, ENTER, 0, 0, 0, 0, 0);
    CALL(0, START, 2, 0, 0, 0, 0);
    CALL(0, EXIT, 1, 0, 0, 0, 0);
    PUSHES(0, EXIT, 0, 0, 0, 2, 0);
    CALL(2, END, 0, 0, 0, 0, 0);
    group_was_right("regions");

    /* "oldest element of that criterion removed; 16 means the largest criterion present"; an element is "any 32-bit unsigned number". */
    fresh_example();
    CALL(0, RETRIEVE, 0, 0, LARGEST, 18, 0);
    CALL(0, SEND, 0, 4294967295u, 15, 0, 0);
    CALL(0, SEND, 0, 0, 15, 0, 0);
    CALL(0, SEND, 0, 1, 16, 14, 0);
    CALL(0, RETRIEVE, 0, 0, 14, 18, 0);
    TAKES(0, 0, LARGEST, 0, 4294967295u, 15);
    CALL(0, SEND, 0, 7, 0, 0, 0);
    TAKES(0, 0, 0, 0, 7, 0);
    TAKES(0, 0, 15, 0, 0, 15);
    group_was_right("queues");
}

static void timers(void)
{
    /* "signal me in 300 ticks", in 2 here: "It then signals its task's event and is disarmed". */
    fresh_example();
    CALL(0, ARM, 5, 4, 2, 0, 0);
    CALL(0, WAIT, 16, 0, 0, 1, NOBODY);
    CALL(OUTSIDE, TICK, 0, 0, 0, 0, NOBODY);
    CALL(OUTSIDE, TICK, 0, 0, 0, 0, 0);
    CALL(0, CLEAR, 16, 0, 0, 0, 0);
    CALL(OUTSIDE, TICK, 0, 0, 0, 0, 0);
    QUERY(ARRIVED, 0, 65535, TANKWESHO_ANY, 0, 0, 0);
    /* "arming again replaces": event 1 in 1 tick, and not event 0. */
    CALL(0, ARM, 5, 0, 1, 0, 0);
    CALL(0, ARM, 5, 1, 1, 0, 0);
    CALL(OUTSIDE, TICK, 0, 0, 0, 0, 0);
    QUERY(ARRIVED, 0, 1, 0, 0, 0, 0);
    QUERY(ARRIVED, 0, 2, 0, 0, 0, 1);
    /* "DISARM of an idle one changes nothing"; a disarmed one doesn't ring. */
    CALL(0, DISARM, 5, 0, 0, 0, 0);
    CALL(0, ARM, 15, 9, 1, 0, 0);
    CALL(0, DISARM, 15, 0, 0, 0, 0);
    CALL(OUTSIDE, TICK, 0, 0, 0, 0, 0);
    QUERY(ARRIVED, 0, 512, 0, 0, 0, 0);
    /* "a TICK from a task gets 12 if that task isn't elected and 13 if it is". */
    CALL(1, TICK, 0, 0, 0, 12, 0);
    CALL(0, TICK, 0, 0, 0, 13, 0);
    /* "ARM or DISARM of a timer that another task has armed gets 15"; "STOP and END disarm the task's timers". */
    CALL(0, ARM, 7, 0, 3, 0, 0);
    PUSHES(0, START, 2, 0, 0, 2, 0);
    CALL(2, ARM, 7, 0, 3, 15, 2);
    CALL(2, DISARM, 7, 0, 0, 15, 2);
    CALL(2, STOP, 0, 0, 0, 0, 2);
    CALL(2, ARM, 7, 0, 3, 0, 2);
    group_was_right("timers");

    /* "all timers due at one tick signal before one election": both wake, and task 2 is the more urgent. */
    fresh_example();
    CALL(0, ARM, 0, 0, 1, 0, 0);
    PUSHES(0, START, 2, 0, 0, 2, 0);
    CALL(2, ARM, 1, 0, 1, 0, 2);
    CALL(2, WAIT, 1, 0, 0, 1, 0);
    CALL(0, WAIT, 1, 0, 0, 1, NOBODY);
    CALL(OUTSIDE, TICK, 0, 0, 0, 0, 2);
    QUERY(STATE, 0, 0, 0, 0, 2, TANKWESHO_READY);
    group_was_right("two timers at one tick");
}

/* T-08: "the former elected task if it is still ready and no longer elected, else 255"; "a refusal gives 255". CALL says that nobody is
   displaced. */
static void pushed_aside(void)
{
    fresh_example();
    PUSHES(0, START, 2, 0, 0, 2, 0);
    CALL(0, CLEAR, 1, 0, 0, 12, 2);
    /* Task 2 waits, ends or stops itself, and so is no longer ready. */
    CALL(2, WAIT, 1, 0, 0, 1, 0);
    PUSHES(OUTSIDE, SIGNAL, 0, 2, 0, 2, 0);
    CALL(2, END, 0, 0, 0, 0, 0);
    PUSHES(0, START, 2, 0, 0, 2, 0);
    CALL(2, STOP, 2, 0, 0, 0, 0);
    /* The holder stays elected, and is pushed aside at the last EXIT. */
    CALL(0, ENTER, 1, 0, 0, 0, 0);
    CALL(0, START, 2, 0, 0, 0, 0);
    PUSHES(0, EXIT, 1, 0, 0, 2, 0);
    /* STOP of another: the caller stays elected. */
    CALL(2, START, 1, 0, 0, 0, 2);
    CALL(2, STOP, 0, 0, 0, 0, 2);
    CALL(2, END, 0, 0, 0, 0, 1);
    /* "of equals the lowest task number", so that task 0 pushes task 1 aside: when it starts, and when its timer rings. */
    PUSHES(1, START, 0, 0, 0, 0, 1);
    CALL(0, ARM, 0, 0, 1, 0, 0);
    CALL(0, WAIT, 1, 0, 0, 1, 1);
    PUSHES(OUTSIDE, TICK, 0, 0, 0, 0, 1);
    QUERY(STATE, 0, 1, 0, 0, 0, TANKWESHO_READY);
    /* Nobody was elected before the signal. */
    fresh_example();
    CALL(0, WAIT, 2, 0, 0, 1, NOBODY);
    CALL(OUTSIDE, SIGNAL, 1, 0, 0, 0, 0);
    group_was_right("who was pushed aside");
}

/* "Queries change nothing"; query_at compares the block each time. */
static void queries(void)
{
    fresh_example();
    QUERY(EMPTY, 0, 0, 0, 0, 0, 1);
    QUERY(FULL, 0, 0, 0, 0, 0, 0);
    CALL(0, SEND, 0, 8, 8, 0, 0);
    QUERY(EMPTY, 0, 0, 0, 0, 0, 0);
    QUERY(FULL, 0, 0, 0, 0, 0, 0);
    CALL(0, SEND, 0, 9, 9, 0, 0);
    QUERY(EMPTY, 0, 0, 0, 0, 0, 0);
    QUERY(FULL, 0, 0, 0, 0, 0, 1);
    QUERY(PRIORITY, 0, 0, 0, 0, 0, 5);
    QUERY(PRIORITY, 0, 2, 0, 0, 0, 2);
    QUERY(STATE, 0, 0, 0, 0, 0, TANKWESHO_READY);
    QUERY(STATE, 0, 2, 0, 0, 0, TANKWESHO_STOPPED);
    CALL(0, SIGNAL, 15, 0, 0, 0, 0);
    QUERY(ARRIVED, 0, 32768, TANKWESHO_ALL, 0, 0, 1);
    QUERY(ARRIVED, 0, 32769, TANKWESHO_ALL, 0, 0, 0);
    QUERY(ARRIVED, 0, 32769, TANKWESHO_ANY, 0, 0, 1);
    /* "ARRIVED uses 10, 12, 14, 19, and 12 for caller 255": in this order. */
    QUERY(ARRIVED, 1, 0, 2, 12, 0, 0);
    QUERY(ARRIVED, OUTSIDE, 1, 0, 12, 0, 0);
    QUERY(ARRIVED, 0, 0, 2, 14, 0, 0);
    QUERY(ARRIVED, 0, 65536, 0, 14, 0, 0);
    QUERY(ARRIVED, 0, 1, 2, 19, 0, 0);
    /* "the other queries have no caller and use 10 and 14" */
    QUERY(EMPTY, 77, 1, 0, 14, 0, 0);
    QUERY(FULL, 77, 1, 0, 14, 0, 0);
    QUERY(PRIORITY, 77, 3, 0, 14, 0, 0);
    QUERY(STATE, 77, 256, 0, 14, 0, 0);
    /* A query number that is none gets 11, as an operation number does. */
    query_at(HERE, 5, 0, 0, 0, 11, 0, 0);
    query_at(HERE, 255, 0, 0, 0, 11, 0, 0);
    /* With nobody elected ARRIVED has no caller that it would take. */
    CALL(0, END, 0, 0, 0, 0, NOBODY);
    QUERY(ARRIVED, OUTSIDE, 1, 0, 12, NOBODY, 0);
    QUERY(PRIORITY, 0, 1, 0, 0, NOBODY, 5);
    group_was_right("queries");
}

int main(void)
{
    names();
    documents_examples();
    order_matters();
    edges();
    tasks_and_events();
    regions_and_queues();
    try_entries();
    try_lines();
    timers();
    pushed_aside();
    queries();
    try_blocks();
    puts("the firmware got every answer that the documents give");
    return 0;
}
