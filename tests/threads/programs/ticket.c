/* A ticket lock. A ticket is read and then moved on, in two steps. */
#include <assert.h>
#include <pthread.h>
#include <stdatomic.h>

static atomic_int next, served;
static int inside;

static int draw(void)
{
#ifdef REPAIRED
    return atomic_fetch_add(&next, 1);
#else
    int mine = atomic_load(&next);
    atomic_store(&next, mine + 1);
    return mine;
#endif
}

static void *run(void *unused)
{
    int mine = draw();
    while (atomic_load(&served) != mine) { }
    inside++;
    assert(inside == 1);
    inside--;
    atomic_fetch_add(&served, 1);
    return unused;
}

int main(void)
{
    pthread_t threads[2];
    for (int i = 0; i < 2; i++)
        pthread_create(&threads[i], NULL, run, NULL);
    for (int i = 0; i < 2; i++)
        pthread_join(threads[i], NULL);
    return 0;
}
