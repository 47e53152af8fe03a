/* A buffer with a lock of its own, used under another lock. Who waits in it keeps the outer lock. Fault: a hang. */
#include <pthread.h>

static pthread_mutex_t outer = PTHREAD_MUTEX_INITIALIZER, inner = PTHREAD_MUTEX_INITIALIZER;
static pthread_cond_t is_there = PTHREAD_COND_INITIALIZER;
static int items, uses;

static void take(void)
{
    pthread_mutex_lock(&inner);
    while (items == 0)
        pthread_cond_wait(&is_there, &inner);
    items--;
    pthread_mutex_unlock(&inner);
}

static void put(void)
{
    pthread_mutex_lock(&inner);
    items++;
    pthread_cond_signal(&is_there);
    pthread_mutex_unlock(&inner);
}

static void *consume(void *unused)
{
#ifdef REPAIRED
    take();
    pthread_mutex_lock(&outer);
#else
    pthread_mutex_lock(&outer);
    take();
#endif
    uses++;
    pthread_mutex_unlock(&outer);
    return unused;
}

int main(void)
{
    pthread_t thread;
    pthread_create(&thread, NULL, consume, NULL);
    pthread_mutex_lock(&outer);
    uses++;
    pthread_mutex_unlock(&outer);
    put();
    pthread_join(thread, NULL);
    return 0;
}
