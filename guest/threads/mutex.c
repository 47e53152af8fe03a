/* Mutexes. The first word is 0, or the owner's number and 1. The second is the kind, and from bit 8 on how often more the owner holds it. */
#include "layer.h"
#include "include/errno.h"
#include "include/pthread.h"

enum { KIND = 0xff, DESTROYED = 0xff, AGAIN = 0x100 };

int pthread_mutexattr_init(pthread_mutexattr_t *attributes)
{
    ir_write(attributes, PTHREAD_MUTEX_DEFAULT);
    return 0;
}

int pthread_mutexattr_destroy(pthread_mutexattr_t *attributes)
{
    (void)attributes;
    return 0;
}

int pthread_mutexattr_settype(pthread_mutexattr_t *attributes, int kind)
{
    if (kind < PTHREAD_MUTEX_NORMAL || kind > PTHREAD_MUTEX_ERRORCHECK)
        return EINVAL;
    ir_write(attributes, (word)kind);
    return 0;
}

int pthread_mutexattr_gettype(const pthread_mutexattr_t *attributes, int *kind)
{
    ir_write(kind, ir_read(attributes));
    return 0;
}

int pthread_mutex_init(pthread_mutex_t *mutex, const pthread_mutexattr_t *attributes)
{
    ir_write_pair(mutex, 0, attributes ? ir_read(attributes) : PTHREAD_MUTEX_DEFAULT);
    return 0;
}

int pthread_mutex_destroy(pthread_mutex_t *mutex)
{
    struct open open = ir_open(mutex);
    word owner = open_get(open, 0);
    if (!owner)
        open_put(open, 1, DESTROYED);
    close(open);
    return owner ? EBUSY : 0;
}

/* What a mutex answers if its owner locks it again. */
static int lock_again(struct open open, word kind)
{
    if ((kind & KIND) == PTHREAD_MUTEX_ERRORCHECK)
        return EDEADLK;
    if ((kind & KIND) != PTHREAD_MUTEX_RECURSIVE)
        return EBUSY;
    if (kind + AGAIN < kind)
        return EAGAIN;
    open_put(open, 1, kind + AGAIN);
    return 0;
}

/* Locks a mutex if it is free. EBUSY: it isn't. */
static int try(pthread_mutex_t *mutex)
{
    struct open open = ir_open(mutex);
    word owner = open_get(open, 0), kind = open_get(open, 1), error = EBUSY;
    if (kind == DESTROYED)
        error = EINVAL;
    else if (!owner) {
        open_put(open, 0, ir_number + 1);
        error = 0;
    } else if (owner == ir_number + 1)
        error = (word)lock_again(open, kind);
    close(open);
    return (int)error;
}

int pthread_mutex_lock(pthread_mutex_t *mutex)
{
    for (;;) {
        int error = try(mutex);
        if (error != EBUSY)
            return error;
        ir_pause();
    }
}

int pthread_mutex_trylock(pthread_mutex_t *mutex)
{
    int error = try(mutex);
    return error == EDEADLK ? EBUSY : error;
}

/* A time-out may come at any moment, so a mutex that isn't free is looked at once. */
int pthread_mutex_timedlock(pthread_mutex_t *mutex, const struct timespec *time)
{
    int error = try(mutex);
    return error == EBUSY ? ir_timed_out(time) : error;
}

int pthread_mutex_unlock(pthread_mutex_t *mutex)
{
    struct open open = ir_open(mutex);
    word kind = open_get(open, 1);
    int mine = open_get(open, 0) == ir_number + 1;
    if (mine && kind >= AGAIN)
        open_put(open, 1, kind - AGAIN);
    else if (mine)
        open_put(open, 0, 0);
    close(open);
    if (!mine && kind == PTHREAD_MUTEX_NORMAL)
        ir_wrong("a mutex is unlocked by a thread that doesn't hold it");
    return mine ? 0 : kind == DESTROYED ? EINVAL : EPERM;
}
