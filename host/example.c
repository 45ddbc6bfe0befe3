/* The shortest firmware: document 01's whole example, called from C. It writes the bench's three answer lines. */
#include <stdio.h>
#include "tankwesho.h"

static uint8_t block[TANKWESHO_BLOCK_SIZE];

static void print(uint64_t answer)
{
    printf("%02X%08X%02X%02X%02X\n", tankwesho_status(answer), (unsigned)tankwesho_value(answer), tankwesho_key(answer),
           tankwesho_elected(answer), tankwesho_displaced(answer));
}

int main(void)
{
    static const uint8_t priorities[] = {5, 5, 2};
    static const uint8_t bounds[] = {2};
    static const uint8_t marks[] = {TANKWESHO_CLOSED, TANKWESHO_CLOSED};
    print(tankwesho_fresh(block, sizeof block, 3, 2, 1, priorities, sizeof priorities, bounds, sizeof bounds, marks, sizeof marks));
    print(tankwesho_call(block, sizeof block, 0, TANKWESHO_START, 2, 0, 0));
    print(tankwesho_call(block, sizeof block, TANKWESHO_OUTSIDE, TANKWESHO_SIGNAL, 0, 1, 0));
    return 0;
}
