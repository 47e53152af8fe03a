/* Sixteen workers and 64 piles of work, each pile an object with sixteen jobs. A worker goes past all piles once, and takes one job
   from each. It doesn't wait for a pile that another worker is at: it goes on if it can't enter.

   What is wrong: the worker leaves that job to the other one, which takes one job only. So for each attempt that is refused a job is left.

   How it shows: a worker took fewer than 64 jobs, and returns how many. Sixteen threads and ir_try_write need --profile 2.
     ir hunt wide.img wide.trc --seeds 1+1000 --profile 2 --until '!code 0 64' */
#define IR_LARGE 1
#include "ir.h"

enum { PILES = 64, JOBS = 16 };
enum { LEFT, LAST };                        /* the words of a pile: the jobs that are left, and who took one last */

/* Takes a job from a pile, unless another worker is there. */
static int takes(ir_word pile)
{
    if (!ir_try_write(pile))
        return 0;                           /* should pause, and then try again */
    ir_put(pile, LEFT, ir_get(pile, LEFT) - 1);
    ir_put(pile, LAST, ir_self());
    ir_leave(pile);
    return 1;
}

IR_THREAD(worker)
{
    ir_word first = ir_self() * (PILES / 16);
    int taken = 0;
    for (ir_word i = 0; i < PILES; i++)
        taken += takes((first + i) % PILES);
    ir_putn(taken);
    return taken;
}

#define FOUR(x) x, x, x, x
#define SIXTEEN(x) FOUR(x), FOUR(x), FOUR(x), FOUR(x)
#define PILE {[LEFT] = JOBS}

IR_THREADS(SIXTEEN(worker));
IR_OBJECTS(SIXTEEN(PILE), SIXTEEN(PILE), SIXTEEN(PILE), SIXTEEN(PILE));
