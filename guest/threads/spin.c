/* Spin locks: a word, 1 while a thread holds it. */
#include "layer.h"
#include "include/errno.h"
#include "include/pthread.h"

int pthread_spin_init(pthread_spinlock_t *lock, int is_shared)
{
    (void)is_shared;
    ir_write(lock, 0);
    return 0;
}

int pthread_spin_destroy(pthread_spinlock_t *lock)
{
    (void)lock;
    return 0;
}

int pthread_spin_trylock(pthread_spinlock_t *lock)
{
    struct open open = ir_open(lock);
    word is_held = open_get(open, 0);
    open_put(open, 0, 1);
    close(open);
    return is_held ? EBUSY : 0;
}

int pthread_spin_lock(pthread_spinlock_t *lock)
{
    while (pthread_spin_trylock(lock))
        ir_pause();
    return 0;
}

int pthread_spin_unlock(pthread_spinlock_t *lock)
{
    ir_write(lock, 0);
    return 0;
}
