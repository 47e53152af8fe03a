/* Readers share a lock, which the first takes and the last gives back. They count themselves without a lock. */
#include <assert.h>
#include <pthread.h>
#include <semaphore.h>

static pthread_mutex_t counts = PTHREAD_MUTEX_INITIALIZER;
static sem_t is_free;
static int readers, value;

static void *read(void *unused)
{
#ifdef REPAIRED
    pthread_mutex_lock(&counts);
#endif
    if (++readers == 1)
        sem_wait(&is_free);
#ifdef REPAIRED
    pthread_mutex_unlock(&counts);
#endif
    int one = value, two = value;
    assert(one == two);
#ifdef REPAIRED
    pthread_mutex_lock(&counts);
#endif
    if (--readers == 0)
        sem_post(&is_free);
#ifdef REPAIRED
    pthread_mutex_unlock(&counts);
#endif
    (void)counts;
    return unused;
}

static void *write(void *unused)
{
    sem_wait(&is_free);
    value = 1;
    sem_post(&is_free);
    return unused;
}

int main(void)
{
    pthread_t threads[3];
    sem_init(&is_free, 0, 1);
    pthread_create(&threads[0], NULL, read, NULL);
    pthread_create(&threads[1], NULL, read, NULL);
    pthread_create(&threads[2], NULL, write, NULL);
    for (int i = 0; i < 3; i++)
        pthread_join(threads[i], NULL);
    return 0;
}
