/* A barrier of a lock and a count, used twice. The last thread sets the count back before the others have seen that it was full.
   Fault: a hang. */
#include <assert.h>
#include <pthread.h>

#define THREADS 2

static pthread_mutex_t lock = PTHREAD_MUTEX_INITIALIZER;
static pthread_cond_t full = PTHREAD_COND_INITIALIZER;
static int count, rounds;

static void pass(void)
{
    pthread_mutex_lock(&lock);
#ifdef REPAIRED
    int mine = rounds;
#endif
    if (++count == THREADS) {
        count = 0;
        rounds++;
        pthread_cond_broadcast(&full);
    }
#ifdef REPAIRED
    while (rounds == mine)
        pthread_cond_wait(&full, &lock);
#else
    while (count != 0)
        pthread_cond_wait(&full, &lock);
#endif
    pthread_mutex_unlock(&lock);
}

static void *run(void *unused)
{
    pass();
    pass();
    return unused;
}

int main(void)
{
    pthread_t threads[THREADS];
    for (int i = 0; i < THREADS; i++)
        pthread_create(&threads[i], NULL, run, NULL);
    for (int i = 0; i < THREADS; i++)
        pthread_join(threads[i], NULL);
    assert(rounds == 2);
    return 0;
}
