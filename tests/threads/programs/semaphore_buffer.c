/* Two producers, a consumer, and two places. The semaphores count places and items, but no lock keeps the producers apart. */
#include <assert.h>
#include <pthread.h>
#include <semaphore.h>

#define PLACES 2

static pthread_mutex_t lock = PTHREAD_MUTEX_INITIALIZER;
static sem_t places, items;
static int buffer[PLACES], next;

static void *produce(void *argument)
{
    sem_wait(&places);
#ifdef REPAIRED
    pthread_mutex_lock(&lock);
#endif
    buffer[next] = *(int *)argument;
    next = next + 1;
#ifdef REPAIRED
    pthread_mutex_unlock(&lock);
#endif
    (void)lock;
    sem_post(&items);
    return NULL;
}

int main(void)
{
    static int values[2] = {1, 2};
    pthread_t threads[2];
    sem_init(&places, 0, PLACES);
    sem_init(&items, 0, 0);
    for (int i = 0; i < 2; i++)
        pthread_create(&threads[i], NULL, produce, &values[i]);
    sem_wait(&items);
    sem_wait(&items);
    assert(buffer[0] + buffer[1] == 3);
    for (int i = 0; i < 2; i++)
        pthread_join(threads[i], NULL);
    return 0;
}
