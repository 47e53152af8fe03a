/* A value is made at its first use, and looked for without the lock first. The flag is set before the value is whole. */
#include <assert.h>
#include <pthread.h>
#include <stdatomic.h>

static pthread_mutex_t lock = PTHREAD_MUTEX_INITIALIZER;
static atomic_int is_made;
static struct { int one, two; } value;

static void make(void)
{
#ifdef REPAIRED
    value.one = 1;
    value.two = 2;
    atomic_store(&is_made, 1);
#else
    atomic_store(&is_made, 1);
    value.one = 1;
    value.two = 2;
#endif
}

static void *use(void *unused)
{
    if (!atomic_load(&is_made)) {
        pthread_mutex_lock(&lock);
        if (!atomic_load(&is_made))
            make();
        pthread_mutex_unlock(&lock);
    }
    assert(value.one == 1 && value.two == 2);
    return unused;
}

int main(void)
{
    pthread_t threads[2];
    for (int i = 0; i < 2; i++)
        pthread_create(&threads[i], NULL, use, NULL);
    for (int i = 0; i < 2; i++)
        pthread_join(threads[i], NULL);
    return 0;
}
