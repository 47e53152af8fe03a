/* A list of three nodes: 1, 2, 3. A thread walks through it by recursion, and another moves node 1 to its end.

   What is wrong: the move is two entries. Between them node 1 is the first node and the last, so the list is a circle.

   How it shows: the walk doesn't come to an end, and runs out of its stack.
     ir hunt stack.elf stack.trc --until 'end 0 7' */
#include "ir.h"

enum { LIST };                         /* the object */
enum { FIRST, NODE_1, NODE_2, NODE_3 }; /* its words: which node comes first, and after each of them; 0 is none */

static ir_word next(ir_word node)
{
    ir_enter_read(LIST);
    ir_word after = ir_get(LIST, node);
    ir_leave(LIST);
    return after;
}

/* Each call of it has a page of its own on the stack. */
static ir_word length(ir_word node)
{
    volatile ir_word page[256];
    page[0] = node;
    return node == 0 ? 0 : 1 + length(next(page[0]));
}

IR_THREAD(walker)
{
    return length(next(FIRST)) == 0;
}

IR_THREAD(mover)
{
    ir_enter_write(LIST);
    ir_put(LIST, NODE_3, NODE_1);      /* a circle, until it is done */
#ifndef REPAIRED
    ir_leave(LIST);
    ir_enter_write(LIST);
#endif
    ir_put(LIST, FIRST, NODE_2);
    ir_put(LIST, NODE_1, 0);
    ir_leave(LIST);
    return 0;
}

IR_THREADS(walker, mover);
IR_OBJECTS([LIST] = {[FIRST] = NODE_1, [NODE_1] = NODE_2, [NODE_2] = NODE_3, [NODE_3] = 0});
