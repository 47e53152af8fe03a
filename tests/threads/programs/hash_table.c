/* A table of open places. Two threads insert a key into the first free place, which is looked for before it is taken. */
#include <assert.h>
#include <pthread.h>
#include <stdatomic.h>

#define SIZE 4

static atomic_int keys[SIZE];

static void insert(int key)
{
    for (int at = key % SIZE;; at = (at + 1) % SIZE) {
#ifdef REPAIRED
        int none = 0;
        if (atomic_compare_exchange_strong(&keys[at], &none, key))
            return;
#else
        if (atomic_load(&keys[at]) == 0) {
            atomic_store(&keys[at], key);
            return;
        }
#endif
    }
}

static int has(int key)
{
    for (int at = 0; at < SIZE; at++)
        if (atomic_load(&keys[at]) == key)
            return 1;
    return 0;
}

static void *run(void *argument)
{
    insert(*(int *)argument);
    return NULL;
}

int main(void)
{
    static int mine[2] = {1, 5};
    pthread_t threads[2];
    for (int i = 0; i < 2; i++)
        pthread_create(&threads[i], NULL, run, &mine[i]);
    for (int i = 0; i < 2; i++)
        pthread_join(threads[i], NULL);
    assert(has(1) && has(5));
    return 0;
}
