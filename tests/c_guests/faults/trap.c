/* Two threads close a connection: it goes from OPEN to CLOSING to CLOSED.

   What is wrong: a thread looks at the state in one entry, and sets the next in another. So it may go on from a state that is past.

   How it shows: `checked` finds a step that can't be, and traps.
     ir hunt trap.elf trap.trc --until fault */
#include "ir.h"

enum { CONNECTION };                   /* the object: its first word is the state */
enum state { OPEN, CLOSING, CLOSED };

/* The state that comes after another. There is none after CLOSED. */
static enum state checked(enum state from, enum state to)
{
    if (to != from + 1)
        __builtin_trap();
    return to;
}

#ifdef REPAIRED
static int advance(void)
{
    ir_enter_write(CONNECTION);
    enum state seen = ir_get(CONNECTION, 0);
    if (seen != CLOSED)
        ir_put(CONNECTION, 0, checked(seen, seen + 1));
    ir_leave(CONNECTION);
    return seen != CLOSED;
}
#else
static int advance(void)
{
    ir_enter_read(CONNECTION);
    enum state seen = ir_get(CONNECTION, 0);
    ir_leave(CONNECTION);
    if (seen == CLOSED)
        return 0;
    ir_enter_write(CONNECTION);
    ir_put(CONNECTION, 0, checked(ir_get(CONNECTION, 0), seen + 1));
    ir_leave(CONNECTION);
    return 1;
}
#endif

IR_THREAD(closer)
{
    while (advance())
        ;
    return 0;
}

IR_THREADS(closer, closer);
IR_OBJECTS([CONNECTION] = {OPEN});
