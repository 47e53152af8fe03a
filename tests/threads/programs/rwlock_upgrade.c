/* Two threads read under a readers-writer lock and then write under it. What was read may be old by then. */
#include <assert.h>
#include <pthread.h>

static pthread_rwlock_t lock = PTHREAD_RWLOCK_INITIALIZER;
static int number;

static void *add(void *unused)
{
#ifdef REPAIRED
    pthread_rwlock_wrlock(&lock);
    number++;
    pthread_rwlock_unlock(&lock);
#else
    pthread_rwlock_rdlock(&lock);
    int seen = number;
    pthread_rwlock_unlock(&lock);
    pthread_rwlock_wrlock(&lock);
    number = seen + 1;
    pthread_rwlock_unlock(&lock);
#endif
    return unused;
}

int main(void)
{
    pthread_t threads[2];
    for (int i = 0; i < 2; i++)
        pthread_create(&threads[i], NULL, add, NULL);
    for (int i = 0; i < 2; i++)
        pthread_join(threads[i], NULL);
    assert(number == 2);
    return 0;
}
