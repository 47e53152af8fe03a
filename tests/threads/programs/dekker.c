/* Dekker's lock. After a thread has waited for its turn it doesn't look again whether the other wants to get in. */
#include <assert.h>
#include <pthread.h>
#include <stdatomic.h>

static atomic_int wants[2], turn;
static int inside;

static void *run(void *argument)
{
    int mine = *(int *)argument, other = 1 - mine;
    atomic_store(&wants[mine], 1);
#ifdef REPAIRED
    while (atomic_load(&wants[other]))
#else
    if (atomic_load(&wants[other]))
#endif
        if (atomic_load(&turn) != mine) {
            atomic_store(&wants[mine], 0);
            while (atomic_load(&turn) != mine) { }
            atomic_store(&wants[mine], 1);
        }
    inside++;
    assert(inside == 1);
    inside--;
    atomic_store(&turn, other);
    atomic_store(&wants[mine], 0);
    return NULL;
}

int main(void)
{
    static int names[2] = {0, 1};
    pthread_t threads[2];
    for (int i = 0; i < 2; i++)
        pthread_create(&threads[i], NULL, run, &names[i]);
    for (int i = 0; i < 2; i++)
        pthread_join(threads[i], NULL);
    return 0;
}
