/* Objects under a name and a type, for gdb alone. The guest never reads them so. */
#include "ir.h"
struct account { ir_word owner, balance, log[6]; };
static union { struct account object; unsigned char bytes[64]; } *const account __attribute__((used, retain)) = (void *)0x80000000;

IR_THREAD(payer)
{
    ir_enter_write(0);
    ir_put(0, 0, ir_self() + 1);
    ir_put(0, 1, ir_get(0, 1) + 10);
    ir_leave(0);
    return 0;
}
IR_THREADS(payer, payer);
IR_OBJECTS({0});
