/* A queue of two places between a producer and a consumer. With -DCOARSE a lock guards all of it; otherwise each side has a count of its own, and
   there is no lock.

   What is wrong without a lock: the producer counts a number before it is in its place. Then the consumer takes what was there before.
   -DREPAIRED puts the number into its place first. */
#include <pthread.h>
#include <stdatomic.h>
#include <stdbool.h>
#include <stdio.h>

enum { PLACES = 2, NONE = -1, NUMBERS = 3 };

static int ring[PLACES];

#ifdef COARSE
static pthread_mutex_t lock = PTHREAD_MUTEX_INITIALIZER;
static unsigned added, taken;

static bool add(int number)
{
    pthread_mutex_lock(&lock);
    bool has_room = added - taken < PLACES;
    if (has_room)
        ring[added++ % PLACES] = number;
    pthread_mutex_unlock(&lock);
    return has_room;
}

static int take(void)
{
    pthread_mutex_lock(&lock);
    int number = added == taken ? NONE : ring[taken++ % PLACES];
    pthread_mutex_unlock(&lock);
    return number;
}
#else
static atomic_uint added, taken;

static bool add(int number)
{
    unsigned mine = atomic_load(&added);
    if (mine - atomic_load(&taken) == PLACES)
        return false;
#ifdef REPAIRED
    ring[mine % PLACES] = number;
    atomic_store(&added, mine + 1);
#else
    atomic_store(&added, mine + 1);
    ring[mine % PLACES] = number;
#endif
    return true;
}

static int take(void)
{
    unsigned mine = atomic_load(&taken);
    if (atomic_load(&added) == mine)
        return NONE;
    int number = ring[mine % PLACES];
    atomic_store(&taken, mine + 1);
    return number;
}
#endif

static void *consume(void *unused)
{
    for (int i = 0; i < NUMBERS; i++)
        printf("took %d\n", take());
    return unused;
}

int main(void)
{
    pthread_t thread;
    pthread_create(&thread, NULL, consume, NULL);
    for (int i = 1; i <= NUMBERS; i++)
        printf("%s %d\n", add(i) ? "added" : "no room for", i);
    pthread_join(thread, NULL);
    return 0;
}
