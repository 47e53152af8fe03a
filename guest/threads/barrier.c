/* Barriers. The first word is for how many threads, the second how many are there, and in its highest bit the round. */
#include "layer.h"
#include "include/errno.h"
#include "include/pthread.h"

#define ROUND 0x80000000u

int pthread_barrierattr_init(pthread_barrierattr_t *attributes)
{
    ir_write(attributes, 0);
    return 0;
}

int pthread_barrierattr_destroy(pthread_barrierattr_t *attributes)
{
    (void)attributes;
    return 0;
}

int pthread_barrier_init(pthread_barrier_t *barrier, const pthread_barrierattr_t *attributes, unsigned count)
{
    (void)attributes;
    if (!count || count >= ROUND)
        return EINVAL;
    ir_write_pair(barrier, count, 0);
    return 0;
}

int pthread_barrier_destroy(pthread_barrier_t *barrier)
{
    (void)barrier;
    return 0;
}

int pthread_barrier_wait(pthread_barrier_t *barrier)
{
    struct open open = ir_open(barrier);
    word count = open_get(open, 0), there = open_get(open, 1), round = there & ROUND;
    int is_last = (there & ~ROUND) + 1 >= count;
    open_put(open, 1, is_last ? round ^ ROUND : there + 1);
    close(open);
    if (is_last)
        return PTHREAD_BARRIER_SERIAL_THREAD;
    while ((ir_read(&barrier->words[1]) & ROUND) == round)
        ir_pause();
    return 0;
}
