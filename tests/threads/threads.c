/* Threads: arguments, results, names, detached ones, errors. */
#include <errno.h>
#include <pthread.h>
#include <sched.h>
#include <stdatomic.h>
#include <stdint.h>
#include <stdio.h>

static pthread_t name;
static atomic_int ended, detached_self;

static void *doubled(void *argument)
{
    return (void *)((intptr_t)argument * 2);
}

static void *exits(void *argument)
{
    pthread_exit((void *)((intptr_t)argument + 1));
}

static void *looks(void *unused)
{
    name = pthread_self();
    return unused;
}

static void *detached(void *unused)
{
    ended = 1;
    return unused;
}

static void *detaches(void *unused)
{
    detached_self = 1 + pthread_detach(pthread_self());
    return unused;
}

static void join_errors(pthread_t other)
{
    pthread_attr_t attributes;
    int state = -1;
    printf("self %d", pthread_join(pthread_self(), NULL) == EDEADLK);
    pthread_attr_init(&attributes);
    pthread_attr_setdetachstate(&attributes, PTHREAD_CREATE_DETACHED);
    pthread_attr_getdetachstate(&attributes, &state);
    printf(" state %d", state == PTHREAD_CREATE_DETACHED);
    printf(" %d", pthread_attr_setdetachstate(&attributes, 77) == EINVAL);
    pthread_create(&other, &attributes, detached, NULL);
    pthread_attr_destroy(&attributes);
    while (!ended)
        sched_yield();
    printf("\n");
}

int main(void)
{
    pthread_t one, two, three, four;
    void *result;
    pthread_create(&one, NULL, doubled, (void *)21);
    pthread_create(&two, NULL, exits, (void *)6);
    pthread_join(two, &result);
    printf("result %d", (int)(intptr_t)result);
    pthread_join(one, &result);
    printf(" %d\n", (int)(intptr_t)result);
    pthread_create(&three, NULL, looks, NULL);
    printf("join %d", pthread_join(three, NULL));
    printf(" names %d %d %d\n", pthread_equal(name, three) != 0, pthread_equal(name, pthread_self()) != 0, pthread_equal(one, two) != 0);
    join_errors(three);
    pthread_create(&four, NULL, detaches, NULL);
    while (!detached_self)
        sched_yield();
    printf("detached %d\n", detached_self);
    return 0;
}
