/* Some threads set two variables, another checks them. It may see the first alone. */
#include <assert.h>
#include <pthread.h>

#ifndef SETTERS
#define SETTERS 2
#endif

static pthread_mutex_t lock = PTHREAD_MUTEX_INITIALIZER;
static volatile int one, two;

static void *set(void *unused)
{
#ifdef REPAIRED
    pthread_mutex_lock(&lock);
#endif
    one = 1;
    two = -1;
#ifdef REPAIRED
    pthread_mutex_unlock(&lock);
#endif
    return unused;
}

static void *check(void *unused)
{
    pthread_mutex_lock(&lock);
    int a = one, b = two;
    pthread_mutex_unlock(&lock);
    assert((a == 0 && b == 0) || (a == 1 && b == -1));
    return unused;
}

int main(void)
{
    pthread_t threads[SETTERS + 1];
    for (int i = 0; i < SETTERS; i++)
        pthread_create(&threads[i], NULL, set, NULL);
    pthread_create(&threads[SETTERS], NULL, check, NULL);
    for (int i = 0; i <= SETTERS; i++)
        pthread_join(threads[i], NULL);
    return 0;
}
