/* One condition variable for two kinds of waiting. The signal may wake the kind that can't go on. Fault: a hang. */
#include <pthread.h>

static pthread_mutex_t lock = PTHREAD_MUTEX_INITIALIZER;
static pthread_cond_t changed = PTHREAD_COND_INITIALIZER;
static int stage;

static void *wait_for(void *argument)
{
    pthread_mutex_lock(&lock);
    while (stage != *(int *)argument)
        pthread_cond_wait(&changed, &lock);
    stage++;
#ifdef REPAIRED
    pthread_cond_broadcast(&changed);
#else
    pthread_cond_signal(&changed);
#endif
    pthread_mutex_unlock(&lock);
    return NULL;
}

int main(void)
{
    static int stages[2] = {1, 2};
    pthread_t threads[2];
    for (int i = 0; i < 2; i++)
        pthread_create(&threads[i], NULL, wait_for, &stages[i]);
    pthread_mutex_lock(&lock);
    stage = 1;
#ifdef REPAIRED
    pthread_cond_broadcast(&changed);
#else
    pthread_cond_signal(&changed);
#endif
    pthread_mutex_unlock(&lock);
    for (int i = 0; i < 2; i++)
        pthread_join(threads[i], NULL);
    return 0;
}
