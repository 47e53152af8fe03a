/* Lamport's bakery. Without the flag that says that a number is being drawn, a number that isn't written yet is taken for none. */
#include <assert.h>
#include <pthread.h>
#include <stdatomic.h>

#define THREADS 2

static atomic_int draws[THREADS], number[THREADS];
static int inside;

static int greatest(void)
{
    int most = 0;
    for (int i = 0; i < THREADS; i++) {
        int other = atomic_load(&number[i]);
        most = other > most ? other : most;
    }
    return most;
}

static int is_before(int other, int mine)
{
    int theirs = atomic_load(&number[other]), own = atomic_load(&number[mine]);
    return theirs != 0 && (theirs < own || (theirs == own && other < mine));
}

static void *run(void *argument)
{
    int mine = *(int *)argument;
#ifdef REPAIRED
    atomic_store(&draws[mine], 1);
#endif
    atomic_store(&number[mine], greatest() + 1);
    atomic_store(&draws[mine], 0);
    for (int other = 0; other < THREADS; other++) {
        while (atomic_load(&draws[other])) { }
        while (is_before(other, mine)) { }
    }
    inside++;
    assert(inside == 1);
    inside--;
    atomic_store(&number[mine], 0);
    return NULL;
}

int main(void)
{
    static int names[THREADS] = {0, 1};
    pthread_t threads[THREADS];
    for (int i = 0; i < THREADS; i++)
        pthread_create(&threads[i], NULL, run, &names[i]);
    for (int i = 0; i < THREADS; i++)
        pthread_join(threads[i], NULL);
    return 0;
}
