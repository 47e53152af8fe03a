/* A cache of a single value, with a lock. A key that isn't there takes the place of the one that is.

   What is wrong: a key is looked up under the lock, and its value is read after that. By then another thread may have put another key
   there.

   How it shows: the value belongs to the other key, and the assertion of `get` fails.
     ir hunt cache.elf cache.trc --until fault */
#include <assert.h>
#include <pthread.h>

static pthread_mutex_t lock = PTHREAD_MUTEX_INITIALIZER;
static int cached, value;

/* What the cache is there for. */
static int computed(int key)
{
    return key * 100 + 1;
}

/* Puts a key into the cache if it isn't there, under the lock. */
static void look_up(int key)
{
    if (cached == key)
        return;
    cached = key;
    value = computed(key);
}

static int get(int key)
{
    pthread_mutex_lock(&lock);
    look_up(key);
#ifdef REPAIRED
    int found = value;
    pthread_mutex_unlock(&lock);
#else
    pthread_mutex_unlock(&lock);
    int found = value;
#endif
    assert(found == computed(key));
    return found;
}

static void *reader(void *unused)
{
    get(1);
    return unused;
}

int main(void)
{
    pthread_t thread;
    pthread_create(&thread, NULL, reader, NULL);
    get(2);
    pthread_join(thread, NULL);
    return 0;
}
