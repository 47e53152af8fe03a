/* A line for each kind of call: those that are functions, and those that are instructions of the line. */
#include "ir_sync.h"

IR_THREAD(caller)
{
    int local = 7;
    ir_pause(200000);
    ir_puts("printed\n");
    ir_enter_write(0);
    ir_put(0, 1, ir_get(0, 0) + ir_get(0, 1) + local);
    ir_leave(0);
    local += ir_add(0, 0, 3) + ir_load(0, 0);
    ir_assert(ir_load(0, 0) > 9);
    return local;
}
IR_THREADS(caller, caller);
IR_OBJECTS({5, 6});
