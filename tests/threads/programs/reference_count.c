/* Two owners of a block, the last of whom frees it. The count is looked at again after it was changed, so both may be last. */
#include <pthread.h>
#include <stdatomic.h>
#include <stdlib.h>
#include <assert.h>

static int *block;
static atomic_int owners = 2, frees;

static void release(void)
{
#ifdef REPAIRED
    int is_last = atomic_fetch_sub(&owners, 1) == 1;
#else
    atomic_fetch_sub(&owners, 1);
    int is_last = atomic_load(&owners) == 0;
#endif
    if (is_last) {
        assert(atomic_fetch_add(&frees, 1) == 0);
        free(block);
    }
}

static void *use(void *unused)
{
    block[0]++;
    release();
    return unused;
}

int main(void)
{
    pthread_t thread;
    block = calloc(2, sizeof *block);
    pthread_create(&thread, NULL, use, NULL);
    block[1]++;
    release();
    pthread_join(thread, NULL);
    return 0;
}
