/* The second thread ends in a way that is chosen when this is compiled, the others by END with code 0. */
#include "ir.h"

static void ended(void)
{
#if WAY == 1
    ir_end(41);
#elif WAY == 2
    ir_assert(ir_self() != 1);
#elif WAY == 3
    __asm__ volatile(".word 0");
#elif WAY == 4
    __asm__ volatile("jalr zero, 2(%0)" : : "r"(&ended));
#elif WAY == 5
    ((void (*)(void))0)();
#elif WAY == 6
    *(volatile ir_word *)0x30000001;
#elif WAY == 7
    *(volatile ir_word *)0x10000 = 1;
#elif WAY == 8
    __asm__ volatile("li a7, 99; ecall" : : : "a7");
#elif WAY == 9
    ir_enter_write(9);
#elif WAY == 10
    ir_enter_write(0);
    ir_enter_write(0);
#elif WAY == 11
    ir_leave(0);
#elif WAY == 12
    for (;;)
        ir_putc('o');
#elif WAY == 13
    for (;;)
        ;
#endif
}

IR_THREAD(good)
{
    ir_enter_write(0);
    ir_put(0, 0, ir_self());
    ir_leave(0);
    return 0;
}

IR_THREAD(bad)
{
    ended();
    return 0;
}
IR_THREADS(good, bad, good);
IR_OBJECTS({0});
