/* A queue under a lock. What was put is noted after the lock is given back. */
#include <assert.h>
#include <pthread.h>

#define ITEMS 2

static pthread_mutex_t lock = PTHREAD_MUTEX_INITIALIZER;
static int queue[ITEMS], noted[ITEMS], head, tail;

static void *put(void *unused)
{
    for (int i = 0; i < ITEMS; i++) {
        pthread_mutex_lock(&lock);
        queue[tail++] = 10 + i;
#ifdef REPAIRED
        noted[i] = 10 + i;
        pthread_mutex_unlock(&lock);
#else
        pthread_mutex_unlock(&lock);
        noted[i] = 10 + i;
#endif
    }
    return unused;
}

static void *take(void *unused)
{
    for (int i = 0; i < ITEMS; i++) {
        pthread_mutex_lock(&lock);
        if (head < tail) {
            assert(queue[head] == noted[head]);
            head++;
        }
        pthread_mutex_unlock(&lock);
    }
    return unused;
}

int main(void)
{
    pthread_t threads[2];
    pthread_create(&threads[0], NULL, put, NULL);
    pthread_create(&threads[1], NULL, take, NULL);
    for (int i = 0; i < 2; i++)
        pthread_join(threads[i], NULL);
    return 0;
}
