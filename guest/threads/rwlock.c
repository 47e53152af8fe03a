/* Readers-writer locks. The first word is how many threads read, the second 0 or the writer's number and 1. */
#include "layer.h"
#include "include/errno.h"
#include "include/pthread.h"

int pthread_rwlockattr_init(pthread_rwlockattr_t *attributes)
{
    ir_write(attributes, 0);
    return 0;
}

int pthread_rwlockattr_destroy(pthread_rwlockattr_t *attributes)
{
    (void)attributes;
    return 0;
}

int pthread_rwlock_init(pthread_rwlock_t *lock, const pthread_rwlockattr_t *attributes)
{
    (void)attributes;
    ir_write_pair(lock, 0, 0);
    return 0;
}

int pthread_rwlock_destroy(pthread_rwlock_t *lock)
{
    (void)lock;
    return 0;
}

/* Gets in for reading or writing if no other thread is in its way. EDEADLK: this thread writes. */
static int try(pthread_rwlock_t *lock, int writes)
{
    struct open open = ir_open(lock);
    word readers = open_get(open, 0), writer = open_get(open, 1), mine = ir_number + 1;
    int error = writer == mine ? EDEADLK : writer || (writes && readers) ? EBUSY : 0;
    if (!error && writes)
        open_put(open, 1, mine);
    else if (!error)
        open_put(open, 0, readers + 1);
    close(open);
    return error;
}

static int wait(pthread_rwlock_t *lock, int writes)
{
    for (;;) {
        int error = try(lock, writes);
        if (error != EBUSY)
            return error;
        ir_pause();
    }
}

static int try_once(pthread_rwlock_t *lock, int writes)
{
    return try(lock, writes) ? EBUSY : 0;
}

/* A time-out may come at any moment, so the lock is looked at once. */
static int wait_until(pthread_rwlock_t *lock, int writes, const struct timespec *time)
{
    int error = try(lock, writes);
    return error == EBUSY ? ir_timed_out(time) : error;
}

int pthread_rwlock_rdlock(pthread_rwlock_t *lock) { return wait(lock, 0); }
int pthread_rwlock_wrlock(pthread_rwlock_t *lock) { return wait(lock, 1); }
int pthread_rwlock_tryrdlock(pthread_rwlock_t *lock) { return try_once(lock, 0); }
int pthread_rwlock_trywrlock(pthread_rwlock_t *lock) { return try_once(lock, 1); }
int pthread_rwlock_timedrdlock(pthread_rwlock_t *lock, const struct timespec *time) { return wait_until(lock, 0, time); }
int pthread_rwlock_timedwrlock(pthread_rwlock_t *lock, const struct timespec *time) { return wait_until(lock, 1, time); }

int pthread_rwlock_unlock(pthread_rwlock_t *lock)
{
    struct open open = ir_open(lock);
    word readers = open_get(open, 0), writer = open_get(open, 1);
    int is_wrong = writer ? writer != ir_number + 1 : !readers;
    if (writer)
        open_put(open, 1, 0);
    else
        open_put(open, 0, readers - 1);
    close(open);
    if (is_wrong)
        ir_wrong("a readers-writer lock is unlocked by a thread that doesn't hold it");
    return 0;
}
