/* A writer puts numbers into a list that is shared, one by one. A reader copies the list, and adds the numbers up.

   What is wrong: the list has room for seven numbers, and the copy for four. If the reader comes late, the fifth number is written
   over what is next in memory: the pointer to the sum.

   How it shows: the reader stores the sum through a pointer that isn't one any more, a bad store, end 7.
     ir hunt over.img over.trc --seeds 1+1000 --until 'end 1 7' */
#include "ir.h"

enum { LIST };                      /* the object */
enum { COUNT, FIRST };              /* its words: how many numbers there are, and then the numbers */

IR_OWN static ir_word sum;
IR_OWN static struct {
    ir_word copy[4];
    ir_word *sum;
} mine = {{0}, &sum};

IR_THREAD(writer)
{
    for (ir_word i = 0; i < 6; i++) {
        ir_enter_write(LIST);
        ir_put(LIST, FIRST + i, 101 + i);
        ir_put(LIST, COUNT, i + 1);
        ir_leave(LIST);
    }
    return 0;
}

/* Copies the list, however long it is, and says how long. */
static ir_word copied(ir_word *to)
{
    ir_enter_read(LIST);
    ir_word count = ir_get(LIST, COUNT);
    for (ir_word i = 0; i < count; i++)
        to[i] = ir_get(LIST, FIRST + i);
    ir_leave(LIST);
    return count;
}

IR_THREAD(reader)
{
    ir_word count = copied(mine.copy), total = 0;
    for (ir_word i = 0; i < count; i++)
        total += mine.copy[i];
    *mine.sum = total;
    ir_putn(sum);
    return 0;
}

IR_THREADS(writer, reader);
IR_OBJECTS([LIST] = {0});
