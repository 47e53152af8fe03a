/* Lamport's bakery. Each thread draws a number above all others, and goes in by rising number.

   What is wrong: two threads may draw the same number. Then the thread with the lower number of its own should go first, and here
   neither waits.

   How it shows: both are in, and the assertion of `work` fails.
     ir hunt bakery.elf bakery.trc --until fault
   With -DCUSTOMERS=3 there are three threads. */
#include "ir_sync.h"

#ifndef CUSTOMERS
#define CUSTOMERS 2
#endif

enum { DRAWS, NUMBER, INSIDE };    /* the objects; a thread's word of the first two has its number as index */

static void draw(ir_word mine)
{
    ir_word most = 0;
    ir_store(DRAWS, mine, 1);
    for (ir_word other = 0; other < CUSTOMERS; other++) {
        ir_word number = ir_load(NUMBER, other);
        most = number > most ? number : most;
    }
    ir_store(NUMBER, mine, most + 1);
    ir_store(DRAWS, mine, 0);
}

static int is_before(ir_word other, ir_word mine)
{
    ir_word theirs = ir_load(NUMBER, other), own = ir_load(NUMBER, mine);
#ifdef REPAIRED
    return theirs != 0 && (theirs < own || (theirs == own && other < mine));
#else
    return theirs != 0 && theirs < own;
#endif
}

static void work(void)
{
    ir_word others = ir_add(INSIDE, 0, 1);
    ir_assert(others == 0);
    ir_add(INSIDE, 0, -1);
}

IR_THREAD(customer)
{
    ir_word mine = ir_self();
    draw(mine);
    for (ir_word other = 0; other < CUSTOMERS; other++) {
        while (ir_load(DRAWS, other))
            ir_pause(2);
        while (is_before(other, mine))
            ir_pause(2);
    }
    work();
    ir_store(NUMBER, mine, 0);
    return 0;
}

#if CUSTOMERS == 3
IR_THREADS(customer, customer, customer);
#else
IR_THREADS(customer, customer);
#endif
IR_OBJECTS([DRAWS] = {0}, [NUMBER] = {0}, [INSIDE] = {0});
