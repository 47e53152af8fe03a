/* Whoever comes first makes a thing, which has to be made once. Looking and making are two steps. */
#include <assert.h>
#include <pthread.h>

static pthread_once_t once = PTHREAD_ONCE_INIT;
static int is_made, times;

static void make(void)
{
    times++;
    is_made = 1;
}

static void *use(void *unused)
{
#ifdef REPAIRED
    pthread_once(&once, make);
#else
    (void)once;
    if (!is_made)
        make();
#endif
    assert(times == 1);
    return unused;
}

int main(void)
{
    pthread_t threads[2];
    for (int i = 0; i < 2; i++)
        pthread_create(&threads[i], NULL, use, NULL);
    for (int i = 0; i < 2; i++)
        pthread_join(threads[i], NULL);
    return 0;
}
