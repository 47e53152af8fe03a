/* A reader uses a version of the data while a writer makes the next one and uses the old memory again. The writer doesn't wait for readers. */
#include <assert.h>
#include <pthread.h>
#include <stdatomic.h>

static int versions[2][2] = {{1, 1}, {0, 0}};
static atomic_int current, reads;

static void *read(void *unused)
{
    atomic_store(&reads, 1);
    int mine = atomic_load(&current);
    int one = versions[mine][0], two = versions[mine][1];
    assert(one == two);
    atomic_store(&reads, 0);
    return unused;
}

static void update(int value)
{
    int next = 1 - atomic_load(&current);
    versions[next][0] = value;
    versions[next][1] = value;
    atomic_store(&current, next);
#ifdef REPAIRED
    while (atomic_load(&reads)) { }
#endif
}

int main(void)
{
    pthread_t thread;
    pthread_create(&thread, NULL, read, NULL);
    update(2);
    update(3);
    pthread_join(thread, NULL);
    return 0;
}
