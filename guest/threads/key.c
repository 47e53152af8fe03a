/* Keys: values that each thread has for itself, and their destructors, which threads share. */
#include "layer.h"
#include "include/errno.h"
#include "include/limits.h"
#include "include/pthread.h"
#include "include/threads.h"

/* Of each key 0, or 1 and the destructor. An address of code is even, so the sum of both is never 0. */
static struct {
    word used, destructor;
} keys[PTHREAD_KEYS_MAX] __attribute__((aligned(8)));

static OWN void *values[PTHREAD_KEYS_MAX];

/* Takes a key if no one has it. */
static int take(word key, word destructor)
{
    struct open open = ir_open(&keys[key]);
    int is_free = !open_get(open, 0);
    if (is_free) {
        open_put(open, 0, 1);
        open_put(open, 1, destructor);
    }
    close(open);
    return is_free;
}

int pthread_key_create(pthread_key_t *key, void (*destructor)(void *))
{
    for (word next = 0; next < PTHREAD_KEYS_MAX; next++)
        if (take(next, (word)destructor)) {
            values[next] = 0;
            ir_write(key, next);
            return 0;
        }
    return EAGAIN;
}

int pthread_key_delete(pthread_key_t key)
{
    if (key >= PTHREAD_KEYS_MAX)
        return EINVAL;
    struct open open = ir_open(&keys[key]);
    word used = open_get(open, 0);
    open_put(open, 0, 0);
    open_put(open, 1, 0);
    close(open);
    values[key] = 0;
    return used ? 0 : EINVAL;
}

void *pthread_getspecific(pthread_key_t key)
{
    ir_settle();
    return key < PTHREAD_KEYS_MAX ? values[key] : 0;
}

int pthread_setspecific(pthread_key_t key, const void *value)
{
    ir_settle();
    if (key >= PTHREAD_KEYS_MAX)
        return EINVAL;
    values[key] = (void *)value;
    return 0;
}

/* Calls the destructor of a key over this thread's value, and says whether there was one. */
static int destroy(word key)
{
    void *value = values[key];
    if (!value)
        return 0;
    values[key] = 0;
    struct open open = ir_open(&keys[key]);
    word destructor = open_get(open, 1);
    close(open);
    if (destructor)
        ((void (*)(void *))destructor)(value);
    return destructor != 0;
}

static int destroy_each(void)
{
    int destroyed = 0;
    for (word key = 0; key < PTHREAD_KEYS_MAX; key++)
        destroyed |= destroy(key);
    return destroyed;
}

/* A destructor may set values again, so it is done again, up to four times. */
void ir_destroy_values(void)
{
    ir_settle();
    for (int round = 0; round < PTHREAD_DESTRUCTOR_ITERATIONS && destroy_each(); round++)
        KEEP_LOOP;
}

int tss_create(tss_t *key, tss_dtor_t destructor) { return pthread_key_create(key, destructor) ? thrd_error : thrd_success; }
void tss_delete(tss_t key) { pthread_key_delete(key); }
void *tss_get(tss_t key) { return pthread_getspecific(key); }
int tss_set(tss_t key, void *value) { return pthread_setspecific(key, value) ? thrd_error : thrd_success; }
