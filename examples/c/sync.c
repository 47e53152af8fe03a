/* A producer adds numbers to a queue, and each of two consumers takes one. A lock guards the queue, and two condition variables wake who
   waits, because the queue is full or because it is empty. They are from ir_sync.h.

   What is wrong: a consumer that finds the queue empty waits once, and then takes a number. But after it was woken, and before it has the
   lock again, the other consumer may take that number. So a wait has to be in a loop.

   How it shows: the consumer finds no number, and its assertion fails, end 2.
     ir hunt sync.img sync.trc --seeds 1+1000 --until fault

   The repair: `while` in place of `if` in take. Then no run at all fails, and none hangs: the last line begins with `finished`, and ends
   with `hangs 0`.
     ir explore sync.img sync.trc --until fault */
#include "ir_sync.h"

enum { SYNC, QUEUE };               /* the objects */
enum { LOCK, ADDED, TAKEN };        /* the words of SYNC: the lock, and the condition variables */
enum { COUNT, SLOT };               /* the words of QUEUE; the slots begin at SLOT */
enum { SLOTS = 1, NUMBERS = 2 };

static void add(ir_word number)
{
    ir_lock(SYNC, LOCK);
    while (ir_load(QUEUE, COUNT) == SLOTS)
        ir_wait(SYNC, LOCK, TAKEN);
    ir_store(QUEUE, SLOT + ir_load(QUEUE, COUNT), number);
    ir_add(QUEUE, COUNT, 1);
    ir_signal(SYNC, ADDED);
    ir_unlock(SYNC, LOCK);
}

static ir_word take(void)
{
    ir_lock(SYNC, LOCK);
    if (ir_load(QUEUE, COUNT) == 0)             /* should be `while` */
        ir_wait(SYNC, LOCK, ADDED);
    ir_word count = ir_load(QUEUE, COUNT), number = 0;
    if (count > 0) {
        number = ir_load(QUEUE, SLOT + count - 1);
        ir_store(QUEUE, COUNT, count - 1);
        ir_signal(SYNC, TAKEN);
    }
    ir_unlock(SYNC, LOCK);
    ir_assert(count > 0);
    return number;
}

IR_THREAD(producer)
{
    for (ir_word i = 1; i <= NUMBERS; i++)
        add(i);
    return 0;
}

IR_THREAD(consumer)
{
    ir_putn(take());
    return 0;
}

IR_THREADS(producer, consumer, consumer);
IR_OBJECTS([SYNC] = {0}, [QUEUE] = {0});
