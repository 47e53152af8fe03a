/* A place for one item, two producers and a consumer. A producer that was woken doesn't look again whether the place is free. */
#include <assert.h>
#include <pthread.h>

static pthread_mutex_t lock = PTHREAD_MUTEX_INITIALIZER;
static pthread_cond_t is_free = PTHREAD_COND_INITIALIZER, is_full = PTHREAD_COND_INITIALIZER;
static int items;

static void *produce(void *unused)
{
    pthread_mutex_lock(&lock);
#ifdef REPAIRED
    while (items > 0)
#else
    if (items > 0)
#endif
        pthread_cond_wait(&is_free, &lock);
    items++;
    assert(items == 1);
    pthread_cond_signal(&is_full);
    pthread_mutex_unlock(&lock);
    return unused;
}

static void *consume(void *unused)
{
    for (int i = 0; i < 3; i++) {
        pthread_mutex_lock(&lock);
        while (items == 0)
            pthread_cond_wait(&is_full, &lock);
        items--;
        pthread_cond_signal(&is_free);
        pthread_mutex_unlock(&lock);
    }
    return unused;
}

int main(void)
{
    pthread_t threads[3];
    items = 1;
    for (int i = 0; i < 2; i++)
        pthread_create(&threads[i], NULL, produce, NULL);
    pthread_create(&threads[2], NULL, consume, NULL);
    for (int i = 0; i < 3; i++)
        pthread_join(threads[i], NULL);
    return 0;
}
