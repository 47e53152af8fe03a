/* Two phases with a barrier between them. The barrier is for one thread fewer than there are. */
#include <assert.h>
#include <pthread.h>

#define THREADS 2

static pthread_barrier_t barrier;
static int made[THREADS], sums[THREADS];

static void *run(void *argument)
{
    int mine = *(int *)argument;
    made[mine] = mine + 1;
    pthread_barrier_wait(&barrier);
    for (int i = 0; i < THREADS; i++)
        sums[mine] += made[i];
    return NULL;
}

int main(void)
{
    static int names[THREADS] = {0, 1};
    pthread_t threads[THREADS];
#ifdef REPAIRED
    pthread_barrier_init(&barrier, NULL, THREADS);
#else
    pthread_barrier_init(&barrier, NULL, THREADS - 1);
#endif
    for (int i = 0; i < THREADS; i++)
        pthread_create(&threads[i], NULL, run, &names[i]);
    for (int i = 0; i < THREADS; i++)
        pthread_join(threads[i], NULL);
    for (int i = 0; i < THREADS; i++)
        assert(sums[i] == 3);
    return 0;
}
