/* A queue lock of Mellor-Crummey and Scott. Who unlocks and sees no successor clears the queue without asking whether one came. Fault: a hang. */
#include <pthread.h>
#include <stdatomic.h>
#include <stddef.h>

struct node {
    _Atomic(struct node *) next;
    atomic_int waits;
};

static struct node nodes[2];
static _Atomic(struct node *) tail;
static int count;

static void lock(struct node *node)
{
    atomic_store(&node->next, NULL);
    struct node *before = atomic_exchange(&tail, node);
    if (before) {
        atomic_store(&node->waits, 1);
        atomic_store(&before->next, node);
        while (atomic_load(&node->waits)) { }
    }
}

static void unlock(struct node *node)
{
    struct node *after = atomic_load(&node->next);
    if (!after) {
#ifdef REPAIRED
        struct node *self = node;
        if (atomic_compare_exchange_strong(&tail, &self, NULL))
            return;
        while (!(after = atomic_load(&node->next))) { }
#else
        atomic_store(&tail, NULL);
        return;
#endif
    }
    atomic_store(&after->waits, 0);
}

static void *run(void *argument)
{
    lock(argument);
    count++;
    unlock(argument);
    return NULL;
}

int main(void)
{
    pthread_t threads[2];
    for (int i = 0; i < 2; i++)
        pthread_create(&threads[i], NULL, run, &nodes[i]);
    for (int i = 0; i < 2; i++)
        pthread_join(threads[i], NULL);
    return 0;
}
