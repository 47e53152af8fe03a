/* threads.h, by pthread.h. */
#include "layer.h"
#include "include/errno.h"
#include "include/threads.h"

static int answer_of(int error)
{
    return error == 0 ? thrd_success : error == EBUSY ? thrd_busy : error == ETIMEDOUT ? thrd_timedout : error == ENOMEM ? thrd_nomem : thrd_error;
}

int thrd_create(thrd_t *name, thrd_start_t function, void *argument)
{
    return answer_of(pthread_create(name, 0, (void *(*)(void *))(void *)function, argument));
}

int thrd_join(thrd_t name, int *result) { return answer_of(pthread_join(name, (void **)result)); }
int thrd_detach(thrd_t name) { return answer_of(pthread_detach(name)); }
void thrd_exit(int result) { pthread_exit((void *)result); }
thrd_t thrd_current(void) { return pthread_self(); }
int thrd_equal(thrd_t one, thrd_t other) { return pthread_equal(one, other); }
void thrd_yield(void) { ir_settle(); }

int thrd_sleep(const struct timespec *time, struct timespec *left)
{
    (void)time;
    (void)left;
    ir_settle();
    return 0;
}

int mtx_init(mtx_t *mutex, int kind)
{
    if (kind & ~(mtx_timed | mtx_recursive))
        return thrd_error;
    ir_write_pair(mutex, 0, kind & mtx_recursive ? PTHREAD_MUTEX_RECURSIVE : PTHREAD_MUTEX_NORMAL);
    return thrd_success;
}

void mtx_destroy(mtx_t *mutex) { pthread_mutex_destroy(mutex); }
int mtx_lock(mtx_t *mutex) { return answer_of(pthread_mutex_lock(mutex)); }
int mtx_trylock(mtx_t *mutex) { return answer_of(pthread_mutex_trylock(mutex)); }
int mtx_timedlock(mtx_t *mutex, const struct timespec *time) { return answer_of(pthread_mutex_timedlock(mutex, time)); }
int mtx_unlock(mtx_t *mutex) { return answer_of(pthread_mutex_unlock(mutex)); }
int cnd_init(cnd_t *condition) { return answer_of(pthread_cond_init(condition, 0)); }
void cnd_destroy(cnd_t *condition) { pthread_cond_destroy(condition); }
int cnd_wait(cnd_t *condition, mtx_t *mutex) { return answer_of(pthread_cond_wait(condition, mutex)); }
int cnd_signal(cnd_t *condition) { return answer_of(pthread_cond_signal(condition)); }
int cnd_broadcast(cnd_t *condition) { return answer_of(pthread_cond_broadcast(condition)); }

int cnd_timedwait(cnd_t *condition, mtx_t *mutex, const struct timespec *time)
{
    return answer_of(pthread_cond_timedwait(condition, mutex, time));
}
