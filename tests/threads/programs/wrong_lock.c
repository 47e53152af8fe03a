/* Two threads change the same number under two locks. */
#include <assert.h>
#include <pthread.h>

static pthread_mutex_t one = PTHREAD_MUTEX_INITIALIZER, other = PTHREAD_MUTEX_INITIALIZER;
static volatile int number;

static void add(pthread_mutex_t *lock)
{
    pthread_mutex_lock(lock);
    int seen = number;
    number++;
    assert(number == seen + 1);
    pthread_mutex_unlock(lock);
}

static void *first(void *unused)
{
    add(&one);
    return unused;
}

static void *second(void *unused)
{
#ifdef REPAIRED
    add(&one);
#else
    add(&other);
#endif
    (void)other;
    return unused;
}

int main(void)
{
    pthread_t threads[2];
    pthread_create(&threads[0], NULL, first, NULL);
    pthread_create(&threads[1], NULL, second, NULL);
    for (int i = 0; i < 2; i++)
        pthread_join(threads[i], NULL);
    return 0;
}
