/* A ticket lock with an attempt to take it, on C11.

   What is wrong: an attempt that doesn't get the lock gives up, but it has drawn a ticket. Nobody comes with this ticket when it is
   called, and all others wait for ever.

   How it shows: a run that no thread can bring to an end.
     ir explore ticket.elf ticket.trc --until hang */
#include <assert.h>
#include <stdatomic.h>
#include <stdbool.h>
#include <threads.h>

static atomic_int drawn, called;
static int inside;

static void lock(void)
{
    int ticket = atomic_fetch_add(&drawn, 1);
    while (atomic_load(&called) != ticket)
        thrd_yield();
}

static bool try_lock(void)
{
    int ticket = atomic_load(&called);
#ifdef REPAIRED
    return atomic_compare_exchange_strong(&drawn, &ticket, ticket + 1);
#else
    return atomic_load(&drawn) == ticket && atomic_fetch_add(&drawn, 1) == ticket;
#endif
}

static void unlock(void)
{
    atomic_fetch_add(&called, 1);
}

static void work(void)
{
    inside++;
    assert(inside == 1);
    inside--;
    unlock();
}

static int waiting(void *unused)
{
    (void)unused;
    lock();
    work();
    return 0;
}

int main(void)
{
    thrd_t thread;
    thrd_create(&thread, waiting, NULL);
    if (try_lock())
        work();
    lock();
    work();
    thrd_join(thread, NULL);
    return 0;
}
