/* Semaphores: a word, the value. */
#include "layer.h"
#include "include/errno.h"
#include "include/limits.h"
#include "include/semaphore.h"

static int fails(int error)
{
    errno = error;
    return -1;
}

int sem_init(sem_t *semaphore, int is_shared, unsigned value)
{
    (void)is_shared;
    if (value > SEM_VALUE_MAX)
        return fails(EINVAL);
    ir_write(semaphore, value);
    return 0;
}

int sem_destroy(sem_t *semaphore)
{
    (void)semaphore;
    return 0;
}

/* Takes one from the value if it isn't 0. */
static int try(sem_t *semaphore)
{
    struct open open = ir_open(semaphore);
    word value = open_get(open, 0);
    if (value)
        open_put(open, 0, value - 1);
    close(open);
    return value != 0;
}

int sem_wait(sem_t *semaphore)
{
    while (!try(semaphore))
        ir_pause();
    return 0;
}

int sem_trywait(sem_t *semaphore)
{
    return try(semaphore) ? 0 : fails(EAGAIN);
}

/* A time-out may come at any moment, so the value is looked at once. */
int sem_timedwait(sem_t *semaphore, const struct timespec *time)
{
    return try(semaphore) ? 0 : fails(ir_timed_out(time));
}

int sem_post(sem_t *semaphore)
{
    struct open open = ir_open(semaphore);
    word value = open_get(open, 0);
    if (value < SEM_VALUE_MAX)
        open_put(open, 0, value + 1);
    close(open);
    return value < SEM_VALUE_MAX ? 0 : fails(EOVERFLOW);
}

int sem_getvalue(sem_t *semaphore, int *value)
{
    ir_write(value, ir_read(semaphore));
    return 0;
}
