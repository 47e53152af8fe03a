/* A pair of numbers that are always written together. With -DCOARSE a lock guards them; otherwise a sequence lock does: it is odd while they are
   written, and a reader takes what it has read if the sequence was even and is still the same.

   What is wrong without the lock: the reader doesn't look at the sequence again. -DREPAIRED does. */
#include <pthread.h>
#include <stdatomic.h>
#include <stdio.h>

static volatile int one, two;

#ifdef COARSE
static pthread_mutex_t lock = PTHREAD_MUTEX_INITIALIZER;

static void set(int number)
{
    pthread_mutex_lock(&lock);
    one = two = number;
    pthread_mutex_unlock(&lock);
}

static void get(int pair[2])
{
    pthread_mutex_lock(&lock);
    pair[0] = one;
    pair[1] = two;
    pthread_mutex_unlock(&lock);
}
#else
static atomic_uint sequence;

static void set(int number)
{
    atomic_fetch_add(&sequence, 1);
    one = two = number;
    atomic_fetch_add(&sequence, 1);
}

static void get(int pair[2])
{
    for (;;) {
        unsigned before = atomic_load(&sequence);
        pair[0] = one;
        pair[1] = two;
#ifdef REPAIRED
        if (before % 2 == 0 && atomic_load(&sequence) == before)
#else
        if (before % 2 == 0)
#endif
            return;
    }
}
#endif

static void *reader(void *unused)
{
    int pair[2];
    get(pair);
    printf("%d %d\n", pair[0], pair[1]);
    return unused;
}

int main(void)
{
    pthread_t thread;
    pthread_create(&thread, NULL, reader, NULL);
    set(7);
    set(8);
    pthread_join(thread, NULL);
    return 0;
}
