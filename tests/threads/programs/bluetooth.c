/* A driver that is stopped while a request comes in. The request looks whether it stops before it is counted. */
#include <assert.h>
#include <pthread.h>
#include <stdatomic.h>

static atomic_int stops, stopped, pending = 1;

static void finish(void)
{
    if (atomic_fetch_sub(&pending, 1) == 1)
        atomic_store(&stopped, 1);
}

static void *request(void *unused)
{
#ifdef REPAIRED
    atomic_fetch_add(&pending, 1);
    int refused = atomic_load(&stops);
#else
    int refused = atomic_load(&stops);
    atomic_fetch_add(&pending, 1);
#endif
    if (!refused)
        assert(!atomic_load(&stopped));
    finish();
    return unused;
}

int main(void)
{
    pthread_t thread;
    pthread_create(&thread, NULL, request, NULL);
    atomic_store(&stops, 1);
    finish();
    while (!atomic_load(&stopped)) { }
    pthread_join(thread, NULL);
    return 0;
}
