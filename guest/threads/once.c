/* What is done once: a word, 0 before it, 1 while a thread does it, 2 after it. */
#include "layer.h"
#include "include/pthread.h"
#include "include/threads.h"

enum { BEFORE, DOING, DONE };

/* How far it is. A thread that finds it before it does it. */
static word begin(pthread_once_t *once)
{
    struct open open = ir_open(once);
    word state = open_get(open, 0);
    if (state == BEFORE)
        open_put(open, 0, DOING);
    close(open);
    return state;
}

int pthread_once(pthread_once_t *once, void (*function)(void))
{
    word state;
    while ((state = begin(once)) == DOING)
        ir_pause();
    if (state == BEFORE) {
        function();
        ir_write(once, DONE);
    }
    return 0;
}

void call_once(once_flag *once, void (*function)(void)) { pthread_once(once, function); }
