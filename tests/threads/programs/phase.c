/* A value has two phases, and a reader is to see both parts of one. It looks at the second part without the lock. */
#include <assert.h>
#include <pthread.h>

static pthread_mutex_t lock = PTHREAD_MUTEX_INITIALIZER;
static volatile int one, two;

static void *change(void *unused)
{
    pthread_mutex_lock(&lock);
    one = 1;
    two = 1;
    pthread_mutex_unlock(&lock);
    return unused;
}

static void *look(void *unused)
{
    pthread_mutex_lock(&lock);
    int seen = one;
#ifdef REPAIRED
    int also = two;
    pthread_mutex_unlock(&lock);
#else
    pthread_mutex_unlock(&lock);
    int also = two;
#endif
    assert(seen == also);
    return unused;
}

int main(void)
{
    pthread_t threads[2];
    pthread_create(&threads[0], NULL, change, NULL);
    pthread_create(&threads[1], NULL, look, NULL);
    for (int i = 0; i < 2; i++)
        pthread_join(threads[i], NULL);
    return 0;
}
