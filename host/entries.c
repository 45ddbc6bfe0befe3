/* T-04 and T-06 in calls: a region counts its entries, and an EXIT that was never entered is refused. What the counts look like in a block is in blocks.c. */
#include "expect.h"

/* "Our record routine calls a helper that enters and exits the same region": the region is still held, and nobody sees half a record.
   Task 2, the more urgent one, is woken inside the helper. */
static void record_routine(void)
{
    fresh_example();
    PUSHES(0, START, 2, 0, 0, 2, 0);
    CALL(2, WAIT, 1, 0, 0, 1, 0);
    CALL(0, ENTER, 0, 0, 0, 0, 0);
    CALL(0, SEND, 0, 11, 3, 0, 0);
    CALL(0, ENTER, 0, 0, 0, 0, 0);
    CALL(OUTSIDE, SIGNAL, 0, 2, 0, 0, 0);
    CALL(0, EXIT, 0, 0, 0, 0, 0);
    QUERY(STATE, 0, 2, 0, 0, 0, TANKWESHO_READY);
    CALL(2, RETRIEVE, 0, 0, 3, 12, 0);
    CALL(0, END, 0, 0, 0, 16, 0);
    CALL(0, SEND, 0, 12, 3, 0, 0);
    /* "free only at the matching EXIT" */
    PUSHES(0, EXIT, 0, 0, 0, 2, 0);
    TAKES(2, 0, 3, 2, 11, 3);
    TAKES(2, 0, 3, 2, 12, 3);
    CALL(2, END, 0, 0, 0, 0, 0);
    group_was_right("the record routine and its helper");
}

static void deepest(void)
{
    /* "a region counts its entries, 1 to 255": the 255th ENTER is accepted. "The 256th ENTER gets 22", and call_at sees to it that no byte
       changes. */
    fresh_example();
    for (int i = 0; i < 255; i++)
        CALL(0, ENTER, 0, 0, 0, 0, 0);
    CALL(0, ENTER, 0, 0, 0, 22, 0);
    /* 13 and 12 apply here too, and are checked first. */
    CALL(OUTSIDE, ENTER, 0, 0, 0, 13, 0);
    CALL(1, ENTER, 0, 0, 0, 12, 0);
    /* Each region has a count of its own, and an EXIT makes room for an ENTER. */
    CALL(0, ENTER, 1, 0, 0, 0, 0);
    CALL(0, ENTER, 0, 0, 0, 22, 0);
    CALL(0, EXIT, 0, 0, 0, 0, 0);
    CALL(0, ENTER, 0, 0, 0, 0, 0);
    CALL(0, ENTER, 0, 0, 0, 22, 0);
    /* "the election takes effect at the last EXIT": the other region's is not the last, nor are 254 of this one's. */
    CALL(0, START, 2, 0, 0, 0, 0);
    CALL(0, EXIT, 1, 0, 0, 0, 0);
    for (int i = 0; i < 254; i++)
        CALL(0, EXIT, 0, 0, 0, 0, 0);
    CALL(0, WAIT, 1, 0, 0, 16, 0);
    PUSHES(0, EXIT, 0, 0, 0, 2, 0);
    group_was_right("255 entries of a region");
}

/* T-06: "EXIT of a region that the caller doesn't hold now gets 23 .. and changes nothing": where it holds none, where it holds another, and
   behind the matching EXIT. That no byte changes is seen by call_at. */
static void not_held(void)
{
    fresh_example();
    CALL(0, EXIT, 1, 0, 0, 23, 0);
    /* 14, 13 and 12 are checked first. */
    CALL(0, EXIT, 2, 0, 0, 14, 0);
    CALL(OUTSIDE, EXIT, 1, 0, 0, 13, 0);
    CALL(1, EXIT, 1, 0, 0, 12, 0);
    PUSHES(0, START, 2, 0, 0, 2, 0);
    CALL(2, ENTER, 0, 0, 0, 0, 2);
    CALL(2, ENTER, 0, 0, 0, 0, 2);
    CALL(2, EXIT, 1, 0, 0, 23, 2);
    CALL(2, EXIT, 0, 0, 0, 0, 2);
    CALL(2, END, 0, 0, 0, 16, 2);
    CALL(2, EXIT, 0, 0, 0, 0, 2);
    CALL(2, EXIT, 0, 0, 0, 23, 2);
    CALL(2, END, 0, 0, 0, 0, 0);
    group_was_right("EXIT of a region that the caller doesn't hold");
}

void try_entries(void)
{
    record_routine();
    deepest();
    not_held();
}
