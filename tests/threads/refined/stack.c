/* A stack of nodes that are used again. With -DCOARSE a lock guards all of it; otherwise the top is changed by compare-and-swap, after Treiber.

   What is wrong without a lock: between a thread's look at the top and its swap, the node may be taken and put back over others. The swap
   doesn't see that, and the thread's next node may be another's: the ABA problem. -DREPAIRED counts the changes of the top in its upper half. */
#include <pthread.h>
#include <stdatomic.h>
#include <stdint.h>
#include <stdio.h>

enum { NODES = 2, NONE = 0 };

/* Node n has the node below it at n - 1. */
static uint32_t below[NODES];

#ifdef COARSE
static pthread_mutex_t lock = PTHREAD_MUTEX_INITIALIZER;
static uint32_t top;

static void push(uint32_t node)
{
    pthread_mutex_lock(&lock);
    below[node - 1] = top;
    top = node;
    pthread_mutex_unlock(&lock);
}

static uint32_t pop(void)
{
    pthread_mutex_lock(&lock);
    uint32_t node = top;
    if (node != NONE)
        top = below[node - 1];
    pthread_mutex_unlock(&lock);
    return node;
}
#else
static _Atomic uint64_t top;

static uint64_t after(uint64_t old, uint32_t node)
{
#ifdef REPAIRED
    return ((old >> 32) + 1) << 32 | node;
#else
    (void)old;
    return node;
#endif
}

static void push(uint32_t node)
{
    uint64_t old = atomic_load(&top);
    do
        below[node - 1] = (uint32_t)old;
    while (!atomic_compare_exchange_strong(&top, &old, after(old, node)));
}

static uint32_t pop(void)
{
    uint64_t old = atomic_load(&top);
    uint32_t next;
    do {
        if ((uint32_t)old == NONE)
            return NONE;
        next = below[(uint32_t)old - 1];
    } while (!atomic_compare_exchange_strong(&top, &old, after(old, next)));
    return (uint32_t)old;
}
#endif

static void *run(void *unused)
{
    printf("popped %u\n", (unsigned)pop());
    return unused;
}

int main(void)
{
    pthread_t thread;
    uint32_t node;
    push(2);
    push(1);
    pthread_create(&thread, NULL, run, NULL);
    uint32_t one = pop(), two = pop();
    printf("popped %u and %u\n", (unsigned)one, (unsigned)two);
    if (one != NONE)
        push(one);
    pthread_join(thread, NULL);
    while ((node = pop()) != NONE)
        printf("left %u\n", (unsigned)node);
    return 0;
}
