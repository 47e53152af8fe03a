/* A token goes around a ring of threads, each of which adds the number of the one before it. The check counts on one order. */
#include <assert.h>
#include <pthread.h>

#define THREADS 3

static pthread_mutex_t lock = PTHREAD_MUTEX_INITIALIZER;
static int values[THREADS];

static void *run(void *argument)
{
    int mine = *(int *)argument, before = (mine + THREADS - 1) % THREADS;
    pthread_mutex_lock(&lock);
    values[mine] = (values[before] + 1) % 4;
    pthread_mutex_unlock(&lock);
    return NULL;
}

int main(void)
{
    static int names[THREADS] = {0, 1, 2};
    pthread_t threads[THREADS];
    for (int i = 0; i < THREADS; i++)
        pthread_create(&threads[i], NULL, run, &names[i]);
    for (int i = 0; i < THREADS; i++)
        pthread_join(threads[i], NULL);
#ifdef REPAIRED
    assert(values[0] + values[1] + values[2] >= 3);
#else
    assert(values[0] <= values[1]);
#endif
    return 0;
}
