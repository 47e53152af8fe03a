/* Treiber's stack over a heap that uses memory again. A thread that pops may take a node for the one that it saw: the ABA problem. */
#include <assert.h>
#include <pthread.h>
#include <stdatomic.h>
#include <stdint.h>
#include <stdlib.h>

struct node {
    int value;
    uint32_t next;
};

/* A node's place in the pool and 1, and in the upper half how often the top was changed. */
static struct node nodes[3];
static _Atomic uint64_t top;

static uint64_t after(uint64_t old, uint32_t node)
{
#ifdef REPAIRED
    return ((old >> 32) + 1) << 32 | node;
#else
    (void)old;
    return node;
#endif
}

static void push(uint32_t node)
{
    uint64_t old = atomic_load(&top);
    do
        nodes[node - 1].next = (uint32_t)old;
    while (!atomic_compare_exchange_strong(&top, &old, after(old, node)));
}

static uint32_t pop(void)
{
    uint64_t old = atomic_load(&top);
    uint32_t next;
    do {
        if ((uint32_t)old == 0)
            return 0;
        next = nodes[(uint32_t)old - 1].next;
    } while (!atomic_compare_exchange_strong(&top, &old, after(old, next)));
    return (uint32_t)old;
}

static void *run(void *unused)
{
    uint32_t node = pop();
    if (node)
        nodes[node - 1].value++;
    return unused;
}

int main(void)
{
    pthread_t thread;
    push(2);
    push(1);
    pthread_create(&thread, NULL, run, NULL);
    uint32_t one = pop(), two = pop();
    if (two)
        nodes[two - 1].value++;
    if (one)
        push(one);
    pthread_join(thread, NULL);
    while ((one = pop()))
        nodes[one - 1].value++;
    for (int i = 0; i < 2; i++)
        assert(nodes[i].value == 1);
    return 0;
}
