/* Two payers move money from one account to another, 40 at a time. A payer looks at the balance in one entry, and moves the money in
   another.

   What is wrong: between the two entries the other payer may move money too. Each entry is right, and the two together aren't. Such
   a fault is an atomicity violation. With 100 at the start, two moves are possible, and 20 is left. A third leaves -20.

   How it shows: at the end word 0 of object 0 isn't 20.
     ir hunt bank.img bank.trc --seeds 1+1000 --until '!word 0 0 20' */
#include "ir.h"

enum { BANK };       /* the objects */
enum { FROM, TO };   /* the words of BANK */

IR_OWN static int moved;    /* each thread has its own */

static int transfer(int amount)
{
    ir_enter_read(BANK);
    int balance = ir_get(BANK, FROM);
    ir_leave(BANK);

    if (balance < amount)
        return 0;

    ir_enter_write(BANK);                   /* by now the balance may be another */
    ir_put(BANK, FROM, ir_get(BANK, FROM) - amount);
    ir_put(BANK, TO, ir_get(BANK, TO) + amount);
    ir_leave(BANK);
    return 1;
}

IR_THREAD(payer)
{
    while (transfer(40))
        moved += 40;
    ir_putn(moved);
    return 0;
}

IR_THREADS(payer, payer);
IR_OBJECTS([BANK] = {[FROM] = 100});
