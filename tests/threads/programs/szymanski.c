/* Szymanski's lock. A thread doesn't wait until all that came later are through the door. */
#include <assert.h>
#include <pthread.h>
#include <stdatomic.h>

static atomic_int state[2];
static int inside;

static void *run(void *argument)
{
    int mine = *(int *)argument, other = 1 - mine;
    atomic_store(&state[mine], 1);
    while (atomic_load(&state[other]) >= 3) { }
    atomic_store(&state[mine], 3);
    if (atomic_load(&state[other]) == 1) {
        atomic_store(&state[mine], 2);
        while (atomic_load(&state[other]) != 4) { }
    }
    atomic_store(&state[mine], 4);
#ifdef REPAIRED
    if (mine == 1)
        while (atomic_load(&state[other]) >= 2) { }
#endif
    inside++;
    assert(inside == 1);
    inside--;
#ifdef REPAIRED
    for (int seen = 2; mine == 0 && (seen == 2 || seen == 3);)
        seen = atomic_load(&state[other]);
#endif
    atomic_store(&state[mine], 0);
    return NULL;
}

int main(void)
{
    static int names[2] = {0, 1};
    pthread_t threads[2];
    for (int i = 0; i < 2; i++)
        pthread_create(&threads[i], NULL, run, &names[i]);
    for (int i = 0; i < 2; i++)
        pthread_join(threads[i], NULL);
    return 0;
}
