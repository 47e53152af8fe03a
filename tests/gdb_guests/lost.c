/* Lost update: the count is read in one entry and written in another. */
#include "ir.h"
IR_OWN static ir_word rounds;

static ir_word read_count(void)
{
    ir_enter_read(0);
    ir_word count = ir_get(0, 0);
    ir_leave(0);
    return count;
}

static void write_count(ir_word count)
{
    ir_enter_write(0);
    ir_put(0, 0, count);
    ir_leave(0);
}

IR_THREAD(adder)
{
    for (ir_word i = 0; i < 2; i++) {
        ir_word count = read_count();
        rounds = rounds + 1;
        write_count(count + 1);
    }
    ir_enter_write(1);
    ir_put(1, ir_self(), rounds);
    ir_leave(1);
    return 0;
}
IR_THREADS(adder, adder, adder);
IR_OBJECTS({0}, {0});
