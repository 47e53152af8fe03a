/* A thread sleeps until an event, whose flag it looks at without the lock. The event may come before it sleeps. Fault: a hang. */
#include <pthread.h>

static pthread_mutex_t lock = PTHREAD_MUTEX_INITIALIZER;
static pthread_cond_t event = PTHREAD_COND_INITIALIZER;
static volatile int happened;

static void *sleeper(void *unused)
{
#ifdef REPAIRED
    pthread_mutex_lock(&lock);
    while (!happened)
        pthread_cond_wait(&event, &lock);
    pthread_mutex_unlock(&lock);
#else
    if (!happened) {
        pthread_mutex_lock(&lock);
        pthread_cond_wait(&event, &lock);
        pthread_mutex_unlock(&lock);
    }
#endif
    return unused;
}

int main(void)
{
    pthread_t thread;
    pthread_create(&thread, NULL, sleeper, NULL);
    pthread_mutex_lock(&lock);
    happened = 1;
    pthread_cond_signal(&event);
    pthread_mutex_unlock(&lock);
    pthread_join(thread, NULL);
    return 0;
}
