/* Two locks and two counts of threads that are inside. The two kinds of threads take the locks in opposite orders. Fault: a hang. */
#include <pthread.h>

static pthread_mutex_t outer = PTHREAD_MUTEX_INITIALIZER, inner = PTHREAD_MUTEX_INITIALIZER;
static int ones, others;

static void *one(void *unused)
{
    pthread_mutex_lock(&outer);
    if (++ones == 1)
        pthread_mutex_lock(&inner);
    pthread_mutex_unlock(&outer);
    pthread_mutex_lock(&outer);
    if (--ones == 0)
        pthread_mutex_unlock(&inner);
    pthread_mutex_unlock(&outer);
    return unused;
}

static void *other(void *unused)
{
#ifdef REPAIRED
    pthread_mutex_lock(&outer);
    pthread_mutex_lock(&inner);
#else
    pthread_mutex_lock(&inner);
    pthread_mutex_lock(&outer);
#endif
    others++;
    pthread_mutex_unlock(&outer);
    pthread_mutex_unlock(&inner);
    return unused;
}

int main(void)
{
    pthread_t threads[2];
#ifdef REPAIRED
    pthread_create(&threads[0], NULL, other, NULL);
#else
    pthread_create(&threads[0], NULL, one, NULL);
#endif
    pthread_create(&threads[1], NULL, other, NULL);
    pthread_join(threads[0], NULL);
    pthread_join(threads[1], NULL);
    return 0;
}
