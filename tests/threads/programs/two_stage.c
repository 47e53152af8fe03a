/* A value is set in two stages under two locks. Between the stages a reader sees the first alone. */
#include <assert.h>
#include <pthread.h>

static pthread_mutex_t first = PTHREAD_MUTEX_INITIALIZER, second = PTHREAD_MUTEX_INITIALIZER;
static int one, two;

static void *set(void *unused)
{
    pthread_mutex_lock(&first);
    one = 1;
#ifndef REPAIRED
    pthread_mutex_unlock(&first);
#endif
    pthread_mutex_lock(&second);
    two = one + 1;
    pthread_mutex_unlock(&second);
#ifdef REPAIRED
    pthread_mutex_unlock(&first);
#endif
    return unused;
}

static void *look(void *unused)
{
    pthread_mutex_lock(&first);
    int a = one;
#ifndef REPAIRED
    pthread_mutex_unlock(&first);
#endif
    if (a == 0) {
#ifdef REPAIRED
        pthread_mutex_unlock(&first);
#endif
        return unused;
    }
    pthread_mutex_lock(&second);
    int b = two;
    pthread_mutex_unlock(&second);
#ifdef REPAIRED
    pthread_mutex_unlock(&first);
#endif
    assert(b == a + 1);
    return unused;
}

int main(void)
{
    pthread_t threads[2];
    pthread_create(&threads[0], NULL, set, NULL);
    pthread_create(&threads[1], NULL, look, NULL);
    for (int i = 0; i < 2; i++)
        pthread_join(threads[i], NULL);
    return 0;
}
