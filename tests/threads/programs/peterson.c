/* Peterson's lock. A thread says whose turn it is before it says that it wants to get in. */
#include <assert.h>
#include <pthread.h>
#include <stdatomic.h>

static atomic_int wants[2], turn;
static int inside;

static void *run(void *argument)
{
    int mine = *(int *)argument, other = 1 - mine;
#ifdef REPAIRED
    atomic_store(&wants[mine], 1);
    atomic_store(&turn, other);
#else
    atomic_store(&turn, other);
    atomic_store(&wants[mine], 1);
#endif
    while (atomic_load(&wants[other]) && atomic_load(&turn) == other) { }
    inside++;
    assert(inside == 1);
    inside--;
    atomic_store(&wants[mine], 0);
    return NULL;
}

int main(void)
{
    static int names[2] = {0, 1};
    pthread_t threads[2];
    for (int i = 0; i < 2; i++)
        pthread_create(&threads[i], NULL, run, &names[i]);
    for (int i = 0; i < 2; i++)
        pthread_join(threads[i], NULL);
    return 0;
}
