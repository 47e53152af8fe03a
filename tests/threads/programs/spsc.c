/* A ring of one producer and one consumer. With two consumers the place is read and moved on in two steps. */
#include <assert.h>
#include <pthread.h>
#include <stdatomic.h>

#define ITEMS 2

static int ring[ITEMS];
static atomic_int head, tail, taken[ITEMS + 1];

static void *produce(void *unused)
{
    for (int i = 0; i < ITEMS; i++) {
        ring[i] = i + 1;
        atomic_store(&tail, i + 1);
    }
    return unused;
}

static void *consume(void *unused)
{
    int first = atomic_load(&head);
    if (first == atomic_load(&tail))
        return unused;
    int item = ring[first];
#ifdef REPAIRED
    if (!atomic_compare_exchange_strong(&head, &first, first + 1))
        return unused;
#else
    atomic_store(&head, first + 1);
#endif
    assert(atomic_fetch_add(&taken[item], 1) == 0);
    return unused;
}

int main(void)
{
    pthread_t threads[3];
    pthread_create(&threads[0], NULL, produce, NULL);
    pthread_create(&threads[1], NULL, consume, NULL);
    pthread_create(&threads[2], NULL, consume, NULL);
    for (int i = 0; i < 3; i++)
        pthread_join(threads[i], NULL);
    return 0;
}
