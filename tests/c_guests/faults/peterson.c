/* Peterson's lock around a count. Each of two threads adds 1 to it.

   What is wrong: a thread that wants to get in says that it is its own turn. It should be the other's turn: then the thread that
   comes last waits. So both get in, and both read the same count.

   How it shows: the count isn't 2 at the end.
     ir hunt peterson.elf peterson.trc --until '!word 3 0 2' */
#include "ir_sync.h"

enum { WANTS_0, WANTS_1, TURN, COUNT };    /* the objects */

static void lock(ir_word mine, ir_word other)
{
    ir_store(WANTS_0 + mine, 0, 1);
#ifdef REPAIRED
    ir_store(TURN, 0, other);
#else
    ir_store(TURN, 0, mine);
#endif
    while (ir_load(WANTS_0 + other, 0) && ir_load(TURN, 0) == other)
        ir_pause(2);
}

static void unlock(ir_word mine)
{
    ir_store(WANTS_0 + mine, 0, 0);
}

static void add(void)
{
    ir_word count = ir_load(COUNT, 0);
    ir_enter_write(COUNT);
    ir_put(COUNT, 0, count + 1);
    ir_leave(COUNT);
}

IR_THREAD(adder)
{
    ir_word mine = ir_self();
    lock(mine, 1 - mine);
    add();
    unlock(mine);
    return 0;
}

IR_THREADS(adder, adder);
IR_OBJECTS([COUNT] = {0});

IR_NAME(WANTS_0, IR_ITSELF, "wants-0");
IR_NAME(WANTS_1, IR_ITSELF, "wants-1");
IR_NAME(TURN, IR_ITSELF, "turn");
IR_NAME(COUNT, IR_ITSELF, "count");
IR_NAME(COUNT, 0, "the-count");
