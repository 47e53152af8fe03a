/* Mutexes of each kind, and their errors. */
#define _GNU_SOURCE
#include <errno.h>
#include <pthread.h>
#include <stdio.h>
#include <time.h>

static pthread_mutex_t plain = PTHREAD_MUTEX_INITIALIZER, recursive, checks;
static pthread_mutex_t ready = PTHREAD_RECURSIVE_MUTEX_INITIALIZER_NP, strict = PTHREAD_ERRORCHECK_MUTEX_INITIALIZER_NP;
static int count;

/* One number for each call, since the order of arguments isn't said. */
static void show(int number)
{
    printf("%d\n", number);
}

static void show_other(int number)
{
    printf("thread %d\n", number);
}

static void *other(void *unused)
{
    struct timespec past = {0, 0};
    show_other(pthread_mutex_trylock(&plain) == EBUSY);
    show_other(pthread_mutex_timedlock(&plain, &past) == ETIMEDOUT);
    show_other(pthread_mutex_trylock(&recursive) == EBUSY);
    show_other(pthread_mutex_unlock(&recursive) == EPERM);
    show_other(pthread_mutex_trylock(&checks) == EBUSY);
    show_other(pthread_mutex_unlock(&checks) == EPERM);
    return unused;
}

static void *add(void *unused)
{
    for (int i = 0; i < 3; i++) {
        pthread_mutex_lock(&recursive);
        pthread_mutex_lock(&recursive);
        count++;
        pthread_mutex_unlock(&recursive);
        pthread_mutex_unlock(&recursive);
    }
    return unused;
}

static void make(void)
{
    pthread_mutexattr_t attributes;
    int kind = -1;
    pthread_mutexattr_init(&attributes);
    show(pthread_mutexattr_settype(&attributes, 99) == EINVAL);
    pthread_mutexattr_settype(&attributes, PTHREAD_MUTEX_RECURSIVE);
    pthread_mutexattr_gettype(&attributes, &kind);
    show(kind == PTHREAD_MUTEX_RECURSIVE);
    show(pthread_mutex_init(&recursive, &attributes));
    pthread_mutexattr_settype(&attributes, PTHREAD_MUTEX_ERRORCHECK);
    show(pthread_mutex_init(&checks, &attributes));
    pthread_mutexattr_destroy(&attributes);
}

int main(void)
{
    pthread_t threads[2];
    struct timespec past = {0, 0};
    make();
    show(pthread_mutex_lock(&recursive));
    show(pthread_mutex_lock(&recursive));
    show(pthread_mutex_trylock(&recursive));
    show(pthread_mutex_unlock(&recursive));
    show(pthread_mutex_unlock(&recursive));
    show(pthread_mutex_unlock(&checks) == EPERM);
    show(pthread_mutex_lock(&checks));
    show(pthread_mutex_lock(&checks) == EDEADLK);
    show(pthread_mutex_trylock(&checks) == EBUSY);
    show(pthread_mutex_trylock(&plain));
    show(pthread_mutex_trylock(&plain) == EBUSY);
    show(pthread_mutex_timedlock(&plain, &past) == ETIMEDOUT);
    show(pthread_mutex_destroy(&plain) == EBUSY);
    pthread_create(&threads[0], NULL, other, NULL);
    pthread_join(threads[0], NULL);
    show(pthread_mutex_unlock(&plain));
    show(pthread_mutex_unlock(&recursive));
    show(pthread_mutex_unlock(&recursive) == EPERM);
    show(pthread_mutex_unlock(&checks));
    show(pthread_mutex_unlock(&checks) == EPERM);
    show(pthread_mutex_lock(&ready));
    show(pthread_mutex_lock(&ready));
    show(pthread_mutex_lock(&strict));
    show(pthread_mutex_lock(&strict) == EDEADLK);
    for (int i = 0; i < 2; i++)
        pthread_create(&threads[i], NULL, add, NULL);
    for (int i = 0; i < 2; i++)
        pthread_join(threads[i], NULL);
    show(count);
    show(pthread_mutex_destroy(&plain));
    show(pthread_mutex_lock(&plain) == EINVAL);
    return 0;
}
