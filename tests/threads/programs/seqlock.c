/* A sequence lock: a reader takes what it read if the sequence is even and didn't change. It doesn't look at the sequence again. */
#include <assert.h>
#include <pthread.h>
#include <stdatomic.h>

static atomic_uint sequence;
static volatile int one, two;

static void *write(void *unused)
{
    atomic_fetch_add(&sequence, 1);
    one = 7;
    two = 7;
    atomic_fetch_add(&sequence, 1);
    return unused;
}

static void *read(void *unused)
{
    for (;;) {
        unsigned before = atomic_load(&sequence);
        int a = one, b = two;
        if (before % 2 == 1)
            continue;
#ifdef REPAIRED
        if (atomic_load(&sequence) != before)
            continue;
#endif
        assert(a == b);
        return unused;
    }
}

int main(void)
{
    pthread_t threads[2];
    pthread_create(&threads[0], NULL, write, NULL);
    pthread_create(&threads[1], NULL, read, NULL);
    for (int i = 0; i < 2; i++)
        pthread_join(threads[i], NULL);
    return 0;
}
