/* threads.h. */
#include <stdio.h>
#include <threads.h>
#include <time.h>

static mtx_t lock, recursive, timed;
static cnd_t changed;
static once_flag once = ONCE_FLAG_INIT;
static tss_t key;
static thread_local int local = 3;
static thrd_t name;
static int times, destroyed, stage;

static void make(void)
{
    times++;
}

static void destroy(void *value)
{
    destroyed += *(int *)value;
}

static int run(void *argument)
{
    call_once(&once, make);
    tss_set(key, argument);
    local += *(int *)tss_get(key);
    name = thrd_current();
    mtx_lock(&lock);
    stage = 1;
    cnd_signal(&changed);
    while (stage != 2)
        cnd_wait(&changed, &lock);
    mtx_unlock(&lock);
    printf("thread busy %d\n", mtx_trylock(&recursive) == thrd_busy);
    printf("thread %d\n", mtx_trylock(&timed) == thrd_success);
    if (local == 8)
        thrd_exit(80);
    return local;
}

int main(void)
{
    static int number = 5;
    struct timespec past = {0, 0}, none = {0, 1};
    thrd_t thread;
    int result;
    printf("init %d %d", mtx_init(&lock, mtx_plain) == thrd_success, mtx_init(&recursive, mtx_plain | mtx_recursive) == thrd_success);
    printf(" %d %d", mtx_init(&timed, mtx_timed) == thrd_success, cnd_init(&changed) == thrd_success);
    printf(" %d\n", tss_create(&key, destroy) == thrd_success);
    mtx_lock(&recursive);
    mtx_lock(&recursive);
    thrd_create(&thread, run, &number);
    mtx_lock(&lock);
    while (stage != 1)
        cnd_wait(&changed, &lock);
    stage = 2;
    cnd_broadcast(&changed);
    mtx_unlock(&lock);
    printf("join %d", thrd_join(thread, &result) == thrd_success);
    printf(" %d %d %d\n", result, thrd_equal(thread, name) != 0, thrd_equal(thread, thrd_current()) != 0);
    call_once(&once, make);
    printf("once %d local %d destroyed %d\n", times, local, destroyed);
    mtx_unlock(&recursive);
    mtx_unlock(&recursive);
    mtx_lock(&lock);
    printf("time %d", cnd_timedwait(&changed, &lock, &past) == thrd_timedout);
    printf(" %d", mtx_timedlock(&timed, &past) == thrd_timedout);
    thrd_yield();
    printf(" %d\n", thrd_sleep(&none, NULL));
    mtx_destroy(&lock);
    cnd_destroy(&changed);
    tss_delete(key);
    return 0;
}
