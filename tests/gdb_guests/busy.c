/* Long private loops. */
#include "ir.h"
IR_OWN static ir_word made[64];

static ir_word mixed(ir_word x)
{
    for (int i = 0; i < 8; i++)
        x = x * 1103515245u + 12345u;
    return x;
}

IR_THREAD(mixer)
{
    ir_word x = ir_self() + 1;
    for (ir_word i = 0; i < 20000; i++) {
        x = mixed(x);
        made[i & 63] = x;
    }
    return 0;
}
IR_THREADS(mixer, mixer);
