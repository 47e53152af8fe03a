/* A ring with a producer and a consumer. The producer counts an item before it is there. */
#include <assert.h>
#include <pthread.h>

#define SIZE 2
#define ITEMS 2

static pthread_mutex_t lock = PTHREAD_MUTEX_INITIALIZER;
static volatile int count;
static int ring[SIZE];

static void change(int by)
{
    pthread_mutex_lock(&lock);
    count += by;
    pthread_mutex_unlock(&lock);
}

static void *produce(void *unused)
{
    for (int i = 0; i < ITEMS; i++) {
        while (count == SIZE) { }
#ifdef REPAIRED
        ring[i % SIZE] = i + 1;
        change(1);
#else
        change(1);
        ring[i % SIZE] = i + 1;
#endif
    }
    return unused;
}

static void *consume(void *unused)
{
    for (int i = 0; i < ITEMS; i++) {
        while (count == 0) { }
        assert(ring[i % SIZE] == i + 1);
        change(-1);
    }
    return unused;
}

int main(void)
{
    pthread_t threads[2];
    pthread_create(&threads[0], NULL, produce, NULL);
    pthread_create(&threads[1], NULL, consume, NULL);
    for (int i = 0; i < 2; i++)
        pthread_join(threads[i], NULL);
    return 0;
}
