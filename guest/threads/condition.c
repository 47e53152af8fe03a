/* Condition variables. The first word has a bit for each thread that waits, in its low half. If several threads wait, a signal is for any of
   them: their bits are in the high half then, and the second word says how many of them it wakes. */
#include "layer.h"
#include "include/errno.h"
#include "include/pthread.h"

enum { HALF = 16, ALL = 0xffff };

int pthread_condattr_init(pthread_condattr_t *attributes)
{
    ir_write(attributes, 0);
    return 0;
}

int pthread_condattr_destroy(pthread_condattr_t *attributes)
{
    (void)attributes;
    return 0;
}

int pthread_condattr_setclock(pthread_condattr_t *attributes, int clock)
{
    (void)attributes;
    (void)clock;
    return 0;
}

int pthread_cond_init(pthread_cond_t *condition, const pthread_condattr_t *attributes)
{
    (void)attributes;
    ir_write_pair(condition, 0, 0);
    return 0;
}

int pthread_cond_destroy(pthread_cond_t *condition)
{
    (void)condition;
    return 0;
}

/* From here on this thread waits. It still holds the mutex, so no signal that comes after the unlock is lost. */
static void begin(pthread_cond_t *condition)
{
    struct open open = ir_open(condition);
    open_put(open, 0, open_get(open, 0) | 1u << ir_number);
    close(open);
}

/* Whether this thread is woken. If not and it gives up, it doesn't wait any more. */
static int is_woken(pthread_cond_t *condition, int gives_up)
{
    struct open open = ir_open(condition);
    word bits = open_get(open, 0), wakes = open_get(open, 1), mine = 1u << ir_number, woken = !(bits & (mine | mine << HALF));
    if (bits & mine << HALF) {
        woken = 1;
        bits &= ~(mine << HALF);
        if (!--wakes)
            bits = (bits | bits >> HALF) & ALL;
        open_put(open, 0, bits);
        open_put(open, 1, wakes);
    } else if (gives_up)
        open_put(open, 0, bits & ~mine);
    close(open);
    return (int)woken;
}

/* Begins to wait, and unlocks the mutex. */
static int unlock_and_begin(pthread_cond_t *condition, pthread_mutex_t *mutex)
{
    begin(condition);
    return pthread_mutex_unlock(mutex);
}

int pthread_cond_wait(pthread_cond_t *condition, pthread_mutex_t *mutex)
{
    int error = unlock_and_begin(condition, mutex);
    if (error)
        return error;
    while (!is_woken(condition, 0))
        ir_pause();
    return pthread_mutex_lock(mutex);
}

/* A time-out may come at any moment, so this thread looks once whether it is woken. */
int pthread_cond_timedwait(pthread_cond_t *condition, pthread_mutex_t *mutex, const struct timespec *time)
{
    int error = unlock_and_begin(condition, mutex);
    if (error)
        return error;
    error = is_woken(condition, 1) ? 0 : ir_timed_out(time);
    int relocked = pthread_mutex_lock(mutex);
    return relocked ? relocked : error;
}

static word count_of(word bits)
{
    word count = 0;
    for (; bits; bits &= bits - 1)
        count++;
    return count;
}

/* A second signal for the same threads wakes one more of them. */
static void signal_again(struct open open, word may, word wakes)
{
    int all = wakes + 1 >= count_of(may);
    open_put(open, 0, all ? 0 : may << HALF);
    open_put(open, 1, all ? 0 : wakes + 1);
}

/* If threads began to wait after a signal that none has taken, those who could take it all wake, which POSIX allows. */
int pthread_cond_signal(pthread_cond_t *condition)
{
    struct open open = ir_open(condition);
    word bits = open_get(open, 0), waiting = bits & ALL, may = bits >> HALF, wakes = open_get(open, 1);
    if (waiting) {
        int several = (waiting & (waiting - 1)) != 0;
        open_put(open, 0, several ? waiting << HALF : 0);
        open_put(open, 1, (word)several);
    } else if (wakes)
        signal_again(open, may, wakes);
    close(open);
    return 0;
}

int pthread_cond_broadcast(pthread_cond_t *condition)
{
    ir_write_pair(condition, 0, 0);
    return 0;
}
