/* A queue of Michael and Scott, whose first node is a dummy. A thread reads the value after it has moved the head, when the node may be used
   again. */
#include <assert.h>
#include <pthread.h>
#include <stdatomic.h>

struct node {
    atomic_int value, next;
};

static struct node nodes[3];
static atomic_int head, tail;

static void put(int node, int value)
{
    atomic_store(&nodes[node].value, value);
    atomic_store(&nodes[node].next, -1);
    int last = atomic_load(&tail);
    atomic_store(&nodes[last].next, node);
    atomic_store(&tail, node);
}

/* The value that is taken, or -1, and the node that is free then. */
static int take(int *node)
{
    int first = atomic_load(&head), next = atomic_load(&nodes[first].next);
    if (next < 0)
        return -1;
#ifdef REPAIRED
    int value = atomic_load(&nodes[next].value);
    if (!atomic_compare_exchange_strong(&head, &first, next))
        return -1;
#else
    if (!atomic_compare_exchange_strong(&head, &first, next))
        return -1;
    int value = atomic_load(&nodes[next].value);
#endif
    *node = first;
    return value;
}

static void *consume(void *unused)
{
    int node, value = take(&node);
    assert(value == -1 || value == 1 || value == 2);
    return unused;
}

int main(void)
{
    pthread_t thread;
    int node;
    atomic_store(&nodes[0].next, -1);
    put(1, 1);
    pthread_create(&thread, NULL, consume, NULL);
    put(2, 2);
    if (take(&node) >= 0 && node == 1)
        put(1, 3);
    pthread_join(thread, NULL);
    return 0;
}
