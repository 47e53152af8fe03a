/* Lamport's fast lock. A thread that finds the way free doesn't look whether it is still the last that came. */
#include <assert.h>
#include <pthread.h>
#include <stdatomic.h>

#define THREADS 2

static atomic_int first, second, busy[THREADS + 1];
static int inside;

static void wait_for_others(void)
{
    for (int i = 1; i <= THREADS; i++)
        while (atomic_load(&busy[i])) { }
}

static void lock(int mine)
{
    for (;;) {
        atomic_store(&busy[mine], 1);
        atomic_store(&first, mine);
        if (atomic_load(&second) != 0) {
            atomic_store(&busy[mine], 0);
            while (atomic_load(&second) != 0) { }
            continue;
        }
        atomic_store(&second, mine);
#ifdef REPAIRED
        if (atomic_load(&first) == mine)
            return;
        atomic_store(&busy[mine], 0);
        wait_for_others();
        if (atomic_load(&second) == mine)
            return;
        while (atomic_load(&second) != 0) { }
#else
        (void)wait_for_others;
        return;
#endif
    }
}

static void *run(void *argument)
{
    int mine = *(int *)argument;
    lock(mine);
    inside++;
    assert(inside == 1);
    inside--;
    atomic_store(&second, 0);
    atomic_store(&busy[mine], 0);
    return NULL;
}

int main(void)
{
    static int names[THREADS] = {1, 2};
    pthread_t threads[THREADS];
    for (int i = 0; i < THREADS; i++)
        pthread_create(&threads[i], NULL, run, &names[i]);
    for (int i = 0; i < THREADS; i++)
        pthread_join(threads[i], NULL);
    return 0;
}
