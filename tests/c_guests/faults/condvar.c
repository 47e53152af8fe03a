/* Two visitors wait on a condition variable until a door is open.

   What is wrong: the doorman wakes a single visitor. If both wait, the other isn't woken.

   How it shows: a run that no thread can bring to an end.
     ir explore condvar.elf condvar.trc --until hang */
#include "ir_sync.h"

enum { DOOR };                         /* the object */
enum { LOCK, OPENED, IS_OPEN };        /* its words: the lock, the condition variable, and whether the door is open */

IR_THREAD(doorman)
{
    ir_lock(DOOR, LOCK);
    ir_store(DOOR, IS_OPEN, 1);
#ifdef REPAIRED
    ir_broadcast(DOOR, OPENED);
#else
    ir_signal(DOOR, OPENED);
#endif
    ir_unlock(DOOR, LOCK);
    return 0;
}

IR_THREAD(visitor)
{
    ir_lock(DOOR, LOCK);
    while (!ir_load(DOOR, IS_OPEN))
        ir_wait(DOOR, LOCK, OPENED);
    ir_unlock(DOOR, LOCK);
    return 0;
}

IR_THREADS(doorman, visitor, visitor);
IR_OBJECTS([DOOR] = {0});
