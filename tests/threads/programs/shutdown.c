/* A worker uses a resource while it isn't shut down. It looks, and uses it later; main closes it in between. */
#include <assert.h>
#include <pthread.h>
#include <stdbool.h>

static pthread_mutex_t lock = PTHREAD_MUTEX_INITIALIZER;
static bool stops, is_open = true;

static bool goes_on(void)
{
    pthread_mutex_lock(&lock);
    bool on = !stops;
    pthread_mutex_unlock(&lock);
    return on;
}

static void *work(void *unused)
{
    for (int i = 0; i < 2 && goes_on(); i++) {
        pthread_mutex_lock(&lock);
        assert(is_open);
        pthread_mutex_unlock(&lock);
    }
    return unused;
}

int main(void)
{
    pthread_t thread;
    pthread_create(&thread, NULL, work, NULL);
    pthread_mutex_lock(&lock);
    stops = true;
    pthread_mutex_unlock(&lock);
#ifdef REPAIRED
    pthread_join(thread, NULL);
#endif
    pthread_mutex_lock(&lock);
    is_open = false;
    pthread_mutex_unlock(&lock);
#ifndef REPAIRED
    pthread_join(thread, NULL);
#endif
    return 0;
}
