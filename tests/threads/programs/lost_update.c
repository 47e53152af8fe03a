/* Two threads add one to a number, without a lock. */
#include <assert.h>
#include <pthread.h>

static pthread_mutex_t lock = PTHREAD_MUTEX_INITIALIZER;
static int number;

static void *add(void *unused)
{
    for (int i = 0; i < 2; i++) {
#ifdef REPAIRED
        pthread_mutex_lock(&lock);
#endif
        number++;
#ifdef REPAIRED
        pthread_mutex_unlock(&lock);
#endif
    }
    (void)lock;
    return unused;
}

int main(void)
{
    pthread_t threads[2];
    for (int i = 0; i < 2; i++)
        pthread_create(&threads[i], NULL, add, NULL);
    for (int i = 0; i < 2; i++)
        pthread_join(threads[i], NULL);
    assert(number == 4);
    return 0;
}
