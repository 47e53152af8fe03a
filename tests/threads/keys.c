/* What is done once, keys with destructors, thread-local variables, errno. */
#include <errno.h>
#include <pthread.h>
#include <semaphore.h>
#include <stdio.h>

static pthread_once_t once = PTHREAD_ONCE_INIT;
static pthread_key_t plain, destroyed, again;
static _Thread_local int local = 4, zero;
static _Thread_local long long wide = 0x100000001LL;
static int times, destructions, rounds;

static void make(void)
{
    times++;
}

static void destroy(void *value)
{
    destructions += *(int *)value;
}

static void set_again(void *value)
{
    if (++rounds < 3)
        pthread_setspecific(again, value);
}

static void *run(void *argument)
{
    pthread_once(&once, make);
    local += *(int *)argument;
    zero++;
    wide *= 2;
    errno = 5;
    printf("thread %d %d %llx", local, zero, (unsigned long long)wide);
    printf(" %d\n", pthread_getspecific(plain) == NULL);
    pthread_setspecific(plain, argument);
    pthread_setspecific(destroyed, argument);
    pthread_setspecific(again, argument);
    printf("thread value %d\n", *(int *)pthread_getspecific(plain));
    if (*(int *)argument == 2)
        pthread_exit(NULL);
    return NULL;
}

int main(void)
{
    static int numbers[2] = {1, 2};
    pthread_t thread;
    pthread_key_create(&plain, NULL);
    pthread_key_create(&destroyed, destroy);
    pthread_key_create(&again, set_again);
    pthread_setspecific(plain, &numbers[0]);
    for (int i = 0; i < 2; i++) {
        pthread_create(&thread, NULL, run, &numbers[i]);
        pthread_join(thread, NULL);
    }
    pthread_once(&once, make);
    printf("main %d %d %llx errno %d once %d\n", local, zero, (unsigned long long)wide, errno, times);
    printf("value %d destructions %d rounds %d\n", *(int *)pthread_getspecific(plain), destructions, rounds);
    printf("delete %d", pthread_key_delete(plain));
    printf(" %d\n", pthread_setspecific(1000000, NULL) == EINVAL);
    return 0;
}
