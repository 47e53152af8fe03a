/* Breakpoints with conditions: a loop calls a function, and writes an object now and then; another thread calls it too. */
#include "ir.h"

enum { SHARED };

IR_OWN static int total;

static __attribute__((noinline)) void add(int i)
{
    total += i;
    asm volatile ("" ::: "memory");
}

IR_THREAD(adder)
{
    for (int i = 0; i < 200; i++) {
        add(i);
        if (i % 50 == 0) {
            ir_enter_write(SHARED);
            ir_put(SHARED, 0, i);
            ir_leave(SHARED);
        }
    }
    return 0;
}

IR_THREAD(other)
{
    for (int i = 0; i < 30; i++)
        add(1000 + i);
    return 0;
}

IR_THREADS(adder, other);
IR_OBJECTS([SHARED] = {7});
