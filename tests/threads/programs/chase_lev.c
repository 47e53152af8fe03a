/* A deque of Chase and Lev: the owner takes at the bottom, a thief steals at the top. The owner takes the last item without asking the top. */
#include <assert.h>
#include <pthread.h>
#include <stdatomic.h>

#define SIZE 4

static atomic_int top, bottom;
static int items[SIZE];
static atomic_int taken[SIZE];

static void push(int item)
{
    int b = atomic_load(&bottom);
    items[b % SIZE] = item;
    atomic_store(&bottom, b + 1);
}

static int take(void)
{
    int b = atomic_load(&bottom) - 1;
    atomic_store(&bottom, b);
    int t = atomic_load(&top), item = -1;
    if (t <= b) {
        item = items[b % SIZE];
        if (t < b)
            return item;
#ifdef REPAIRED
        if (!atomic_compare_exchange_strong(&top, &t, t + 1))
            item = -1;
#else
        atomic_store(&top, t + 1);
#endif
    }
    atomic_store(&bottom, b + 1);
    return item;
}

static int steal(void)
{
    int t = atomic_load(&top), b = atomic_load(&bottom);
    if (t >= b)
        return -1;
    int item = items[t % SIZE];
    return atomic_compare_exchange_strong(&top, &t, t + 1) ? item : -1;
}

static void count(int item)
{
    if (item >= 0)
        assert(atomic_fetch_add(&taken[item], 1) == 0);
}

static void *thief(void *unused)
{
    count(steal());
    return unused;
}

int main(void)
{
    pthread_t thread;
    push(0);
    push(1);
    pthread_create(&thread, NULL, thief, NULL);
    count(take());
    count(take());
    pthread_join(thread, NULL);
    return 0;
}
