/* Threads give a block to a node, each block once. The table of blocks is looked at without its lock. */
#include <assert.h>
#include <pthread.h>
#include <stdbool.h>

#define BLOCKS 2

static pthread_mutex_t locks[BLOCKS] = {PTHREAD_MUTEX_INITIALIZER, PTHREAD_MUTEX_INITIALIZER};
static bool is_used[BLOCKS];
static int owners[BLOCKS];

static int allocate(int mine)
{
    for (int block = 0; block < BLOCKS; block++) {
#ifdef REPAIRED
        pthread_mutex_lock(&locks[block]);
        bool is_free = !is_used[block];
#else
        bool is_free = !is_used[block];
        pthread_mutex_lock(&locks[block]);
#endif
        if (is_free) {
            is_used[block] = true;
            owners[block] += mine;
            pthread_mutex_unlock(&locks[block]);
            return block;
        }
        pthread_mutex_unlock(&locks[block]);
    }
    return -1;
}

static void *create(void *argument)
{
    int mine = *(int *)argument, block = allocate(mine);
    assert(block >= 0 && owners[block] == mine);
    return NULL;
}

int main(void)
{
    static int names[2] = {1, 2};
    pthread_t threads[2];
    for (int i = 0; i < 2; i++)
        pthread_create(&threads[i], NULL, create, &names[i]);
    for (int i = 0; i < 2; i++)
        pthread_join(threads[i], NULL);
    return 0;
}
