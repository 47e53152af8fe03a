/* A thread waits for a value for some time. It takes the value also if the time was over. */
#include <assert.h>
#include <errno.h>
#include <pthread.h>
#include <time.h>

static pthread_mutex_t lock = PTHREAD_MUTEX_INITIALIZER;
static pthread_cond_t is_there = PTHREAD_COND_INITIALIZER;
static int value;

static void *provide(void *unused)
{
    pthread_mutex_lock(&lock);
    value = 5;
    pthread_cond_signal(&is_there);
    pthread_mutex_unlock(&lock);
    return unused;
}

int main(void)
{
    struct timespec soon = {1, 0};
    pthread_t thread;
    int error = 0;
    pthread_create(&thread, NULL, provide, NULL);
    pthread_mutex_lock(&lock);
    while (!value && error != ETIMEDOUT)
        error = pthread_cond_timedwait(&is_there, &lock, &soon);
#ifdef REPAIRED
    if (value)
#endif
        assert(value == 5);
    pthread_mutex_unlock(&lock);
    pthread_join(thread, NULL);
    return 0;
}
