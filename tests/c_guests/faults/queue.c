/* A bounded queue with a lock. Two threads put a number each, and there is room for one. A number that has no room is dropped.

   What is wrong: `put` asks whether there is room in one hold of the lock, and puts its number in another. Both threads may find the
   last place free.

   How it shows: there are more numbers in the queue than it has places, and the assertion of `put` fails.
     ir hunt queue.elf queue.trc --until fault */
#include <assert.h>
#include <pthread.h>
#include <stdbool.h>

#define PLACES 2

static pthread_mutex_t lock = PTHREAD_MUTEX_INITIALIZER;
static unsigned head, tail = 1;
static int numbers[PLACES] = {10};

#ifdef REPAIRED
static bool put(int number)
{
    pthread_mutex_lock(&lock);
    bool has_room = tail - head < PLACES;
    if (has_room)
        numbers[tail++ % PLACES] = number;
    pthread_mutex_unlock(&lock);
    return has_room;
}
#else
static bool is_full(void)
{
    pthread_mutex_lock(&lock);
    unsigned count = tail - head;
    pthread_mutex_unlock(&lock);
    return count == PLACES;
}

static bool put(int number)
{
    if (is_full())
        return false;
    pthread_mutex_lock(&lock);
    unsigned count = tail - head;
    assert(count < PLACES);
    numbers[tail++ % PLACES] = number;
    pthread_mutex_unlock(&lock);
    return true;
}
#endif

static int take(void)
{
    pthread_mutex_lock(&lock);
    int number = numbers[head++ % PLACES];
    pthread_mutex_unlock(&lock);
    return number;
}

static void *producer(void *unused)
{
    put(11);
    return unused;
}

int main(void)
{
    pthread_t thread;
    pthread_create(&thread, NULL, producer, NULL);
    put(12);
    pthread_join(thread, NULL);
    assert(take() == 10);
    assert(take() >= 11);
    return 0;
}
