/* A spin lock of a flag. It is looked at and set in two steps. */
#include <assert.h>
#include <pthread.h>
#include <stdatomic.h>

static atomic_int held;
static int inside;

static void lock(void)
{
#ifdef REPAIRED
    while (atomic_exchange(&held, 1)) { }
#else
    while (atomic_load(&held)) { }
    atomic_store(&held, 1);
#endif
}

static void *run(void *unused)
{
    lock();
    inside++;
    assert(inside == 1);
    inside--;
    atomic_store(&held, 0);
    return unused;
}

int main(void)
{
    pthread_t threads[2];
    for (int i = 0; i < 2; i++)
        pthread_create(&threads[i], NULL, run, NULL);
    for (int i = 0; i < 2; i++)
        pthread_join(threads[i], NULL);
    return 0;
}
