/* A producer hands numbers to a consumer through a buffer of four slots. A consumer that finds none waits until it is woken.

   What is wrong: the consumer leaves the buffer between "it is empty" and "I wait". Numbers that the producer adds just then wake no
   thread. The consumer waits beside them, and once the buffer is full the producer waits too, for ever: a lost wake-up.

   How it shows: both ask again and again until their budget is spent, end 13. A small budget makes the hunt quick.
     ir hunt buffer.img buffer.trc --seeds 1+1000 --budget 100000 --until budget */
#include "ir.h"

enum { BUFFER };                                    /* the object */
enum { COUNT, WAITS, SLOT };                        /* its words; the slots begin at SLOT */
enum { SLOTS = 4, NUMBERS = 12 };

static int add(ir_word number)                      /* unless the buffer is full */
{
    ir_enter_write(BUFFER);
    ir_word count = ir_get(BUFFER, COUNT);
    if (count < SLOTS) {
        ir_put(BUFFER, SLOT + count, number);
        ir_put(BUFFER, COUNT, count + 1);
        ir_put(BUFFER, WAITS, 0);                   /* wakes the consumer, if it waits */
    }
    ir_leave(BUFFER);
    return count < SLOTS;
}

static int take(ir_word *number)                    /* unless the buffer is empty */
{
    ir_enter_write(BUFFER);
    ir_word count = ir_get(BUFFER, COUNT);
    if (count > 0) {
        *number = ir_get(BUFFER, SLOT + count - 1);
        ir_put(BUFFER, COUNT, count - 1);
    }
    ir_leave(BUFFER);                               /* from here on the producer may add */
    return count > 0;
}

static void wait_until_woken(void)
{
    ir_enter_write(BUFFER);
    ir_put(BUFFER, WAITS, 1);                       /* too late for what was added since take() */
    ir_leave(BUFFER);
    for (ir_word waits = 1; waits;) {
        ir_pause(20);
        ir_enter_read(BUFFER);
        waits = ir_get(BUFFER, WAITS);
        ir_leave(BUFFER);
    }
}

IR_THREAD(producer)
{
    for (ir_word i = 1; i <= NUMBERS; i += add(i))
        ir_pause(20);
    return 0;
}

IR_THREAD(consumer)
{
    ir_word sum = 0, number = 0;
    for (int i = 0; i < NUMBERS; i++, sum += number)
        while (!take(&number))
            wait_until_woken();
    ir_putn(sum);
    return 0;
}

IR_THREADS(producer, consumer);
IR_OBJECTS([BUFFER] = {0});
