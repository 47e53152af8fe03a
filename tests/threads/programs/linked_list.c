/* Two threads put a node in front of a list. The head is read, and written later, so a node may be lost. */
#include <assert.h>
#include <pthread.h>
#include <stdatomic.h>
#include <stdlib.h>

struct node {
    int value;
    struct node *next;
};

static _Atomic(struct node *) head;

static void insert(int value)
{
    struct node *node = malloc(sizeof *node);
    node->value = value;
    node->next = atomic_load(&head);
#ifdef REPAIRED
    while (!atomic_compare_exchange_strong(&head, &node->next, node)) { }
#else
    atomic_store(&head, node);
#endif
}

static void *run(void *argument)
{
    insert(*(int *)argument);
    return NULL;
}

int main(void)
{
    static int values[2] = {1, 2};
    pthread_t threads[2];
    int sum = 0;
    for (int i = 0; i < 2; i++)
        pthread_create(&threads[i], NULL, run, &values[i]);
    for (int i = 0; i < 2; i++)
        pthread_join(threads[i], NULL);
    for (struct node *node = atomic_load(&head); node; node = node->next)
        sum += node->value;
    assert(sum == 3);
    return 0;
}
