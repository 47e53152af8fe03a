/* Two threads draw numbers. With -DCOARSE a mutex guards the count; otherwise a ticket lock does, with a ticket and a call for each.

   What is wrong without the mutex: a ticket is read and then counted, in two steps. So two threads may have the same ticket.
   -DREPAIRED draws it in one. */
#include <pthread.h>
#include <stdatomic.h>
#include <stdio.h>

static volatile int count;

#ifdef COARSE
static pthread_mutex_t mutex = PTHREAD_MUTEX_INITIALIZER;

static void lock(void)
{
    pthread_mutex_lock(&mutex);
}

static void unlock(void)
{
    pthread_mutex_unlock(&mutex);
}
#else
static atomic_int drawn, called;

static void lock(void)
{
#ifdef REPAIRED
    int ticket = atomic_fetch_add(&drawn, 1);
#else
    int ticket = atomic_load(&drawn);
    atomic_store(&drawn, ticket + 1);
#endif
    while (atomic_load(&called) != ticket) { }
}

static void unlock(void)
{
    atomic_fetch_add(&called, 1);
}
#endif

static int next_number(void)
{
    lock();
    int number = ++count;
    unlock();
    return number;
}

static void *run(void *unused)
{
    printf("number %d\n", next_number());
    return unused;
}

int main(void)
{
    pthread_t thread;
    pthread_create(&thread, NULL, run, NULL);
    run(NULL);
    pthread_join(thread, NULL);
    return 0;
}
