/* Workers take jobs by a shared index. One reads the index without the lock, so two may take the same job. */
#include <assert.h>
#include <pthread.h>

#define JOBS 2

static pthread_mutex_t lock = PTHREAD_MUTEX_INITIALIZER;
static int next, done[JOBS];

static int take(void)
{
#ifdef REPAIRED
    pthread_mutex_lock(&lock);
    int job = next++;
    pthread_mutex_unlock(&lock);
#else
    int job = next;
    pthread_mutex_lock(&lock);
    next = job + 1;
    pthread_mutex_unlock(&lock);
#endif
    return job;
}

static void *work(void *unused)
{
    for (int job = take(); job < JOBS; job = take())
        done[job]++;
    return unused;
}

int main(void)
{
    pthread_t threads[2];
    for (int i = 0; i < 2; i++)
        pthread_create(&threads[i], NULL, work, NULL);
    for (int i = 0; i < 2; i++)
        pthread_join(threads[i], NULL);
    for (int i = 0; i < JOBS; i++)
        assert(done[i] == 1);
    return 0;
}
