/* A thread tries to lock, and goes on as if it had, also if it hasn't. */
#include <assert.h>
#include <pthread.h>

static pthread_mutex_t lock = PTHREAD_MUTEX_INITIALIZER;
static volatile int number;

static void *add(void *unused)
{
    pthread_mutex_lock(&lock);
    number = number + 1;
    pthread_mutex_unlock(&lock);
    return unused;
}

static void *try_to_add(void *unused)
{
    int error = pthread_mutex_trylock(&lock);
#ifdef REPAIRED
    if (error)
        return unused;
#endif
    int seen = number;
    number = seen + 1;
    assert(number == seen + 1);
    if (!error)
        pthread_mutex_unlock(&lock);
    return unused;
}

int main(void)
{
    pthread_t threads[2];
    pthread_create(&threads[0], NULL, add, NULL);
    pthread_create(&threads[1], NULL, try_to_add, NULL);
    for (int i = 0; i < 2; i++)
        pthread_join(threads[i], NULL);
    return 0;
}
