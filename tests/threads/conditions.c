/* Condition variables: signal, broadcast, waits with a time, many waiters. */
#include <errno.h>
#include <pthread.h>
#include <stdio.h>
#include <time.h>

#define WAITERS 3

static pthread_mutex_t lock = PTHREAD_MUTEX_INITIALIZER;
static pthread_cond_t changed = PTHREAD_COND_INITIALIZER, all_wait;
static int waiting, passes, passed, opened;

static void *wait_for_pass(void *unused)
{
    pthread_mutex_lock(&lock);
    waiting++;
    pthread_cond_signal(&all_wait);
    while (passes == 0)
        pthread_cond_wait(&changed, &lock);
    passes--;
    passed++;
    while (!opened)
        pthread_cond_wait(&changed, &lock);
    pthread_mutex_unlock(&lock);
    return unused;
}

static void give_passes(void)
{
    pthread_mutex_lock(&lock);
    while (waiting < WAITERS)
        pthread_cond_wait(&all_wait, &lock);
    pthread_mutex_unlock(&lock);
    for (int i = 0; i < WAITERS; i++) {
        pthread_mutex_lock(&lock);
        passes++;
        pthread_cond_broadcast(&changed);
        pthread_mutex_unlock(&lock);
    }
}

static void open(void)
{
    pthread_mutex_lock(&lock);
    opened = 1;
    pthread_cond_broadcast(&changed);
    pthread_mutex_unlock(&lock);
}

int main(void)
{
    pthread_t threads[WAITERS];
    struct timespec past = {0, 0}, wrong = {0, 2000000000};
    pthread_cond_init(&all_wait, NULL);
    printf("nobody %d %d\n", pthread_cond_signal(&changed), pthread_cond_broadcast(&changed));
    pthread_mutex_lock(&lock);
    printf("time %d", pthread_cond_timedwait(&changed, &lock, &past) == ETIMEDOUT);
    printf(" %d\n", pthread_cond_timedwait(&changed, &lock, &wrong) == EINVAL);
    pthread_mutex_unlock(&lock);
    for (int i = 0; i < WAITERS; i++)
        pthread_create(&threads[i], NULL, wait_for_pass, NULL);
    give_passes();
    open();
    for (int i = 0; i < WAITERS; i++)
        pthread_join(threads[i], NULL);
    printf("passed %d %d destroy %d\n", passed, passes, pthread_cond_destroy(&all_wait));
    return 0;
}
