/* A deque of jobs in a ring of two places. Its owner pushes at the bottom and takes there, and a thief steals at the top.

   What is wrong: the thief moves the top on, and reads the job after that. By then its place is free, and the owner may have put the
   next job there. So this job is done twice, and another never.

   How it shows: a thread that gets a job that was done already ends with code 1.
     ir hunt deque.elf deque.trc --until bad */
#include "ir_sync.h"

enum { TOP, BOTTOM, RING, DONE };    /* the objects */
enum { PLACES = 2, NONE = -1 };

static int push(ir_word job)
{
    ir_word bottom = ir_load(BOTTOM, 0);
    if (bottom - ir_load(TOP, 0) == PLACES)
        return 0;
    ir_store(RING, bottom % PLACES, job);
    ir_store(BOTTOM, 0, bottom + 1);
    return 1;
}

static int take(void)
{
    ir_word bottom = ir_load(BOTTOM, 0) - 1;
    ir_store(BOTTOM, 0, bottom);
    ir_word top = ir_load(TOP, 0);
    int job = ir_load(RING, bottom % PLACES);
    if ((int)(bottom - top) > 0)
        return job;
    if (bottom != top || ir_cas(TOP, 0, top, top + 1) != top)
        job = NONE;
    ir_store(BOTTOM, 0, bottom + 1);
    return job;
}

static int steal(void)
{
    ir_word top = ir_load(TOP, 0);
    if ((int)(ir_load(BOTTOM, 0) - top) <= 0)
        return NONE;
#ifdef REPAIRED
    int job = ir_load(RING, top % PLACES);
    return ir_cas(TOP, 0, top, top + 1) == top ? job : NONE;
#else
    return ir_cas(TOP, 0, top, top + 1) == top ? (int)ir_load(RING, top % PLACES) : NONE;
#endif
}

/* Does a job, and gives how often it was done before. */
static ir_word done(int job)
{
    return job == NONE ? 0 : ir_add(DONE, job, 1);
}

IR_THREAD(owner)
{
    ir_word again = push(2) ? 0 : done(2);
    for (int i = 0; i < PLACES; i++)
        again += done(take());
    return again;
}

IR_THREAD(thief)
{
    return done(steal());
}

IR_THREADS(owner, thief);
IR_OBJECTS([TOP] = {0}, [BOTTOM] = {PLACES}, [RING] = {0, 1}, [DONE] = {0});
