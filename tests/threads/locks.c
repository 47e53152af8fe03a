/* Readers-writer locks, spin locks, barriers, and their errors. */
#include <errno.h>
#include <pthread.h>
#include <stdio.h>
#include <time.h>

static pthread_rwlock_t rwlock = PTHREAD_RWLOCK_INITIALIZER;
static pthread_spinlock_t spin;
static pthread_barrier_t barrier;
static int count, last, sums[3];

/* One number for each call, since the order of arguments isn't said. */
static void show(int number)
{
    printf("%d\n", number);
}

static void show_other(int number)
{
    printf("thread %d\n", number);
}

static void *other(void *unused)
{
    struct timespec past = {0, 0};
    show_other(pthread_rwlock_tryrdlock(&rwlock));
    show_other(pthread_rwlock_trywrlock(&rwlock) == EBUSY);
    show_other(pthread_rwlock_timedwrlock(&rwlock, &past) == ETIMEDOUT);
    show_other(pthread_rwlock_unlock(&rwlock));
    return unused;
}

static void *waits(void *argument)
{
    int mine = *(int *)argument;
    for (int round = 0; round < 2; round++) {
        pthread_spin_lock(&spin);
        count += mine;
        pthread_spin_unlock(&spin);
        int error = pthread_barrier_wait(&barrier);
        pthread_spin_lock(&spin);
        last += error == PTHREAD_BARRIER_SERIAL_THREAD;
        pthread_spin_unlock(&spin);
        sums[mine] += count;
        pthread_barrier_wait(&barrier);
    }
    return NULL;
}

static void rwlocks(void)
{
    pthread_t thread;
    struct timespec past = {0, 0};
    show(pthread_rwlock_rdlock(&rwlock));
    show(pthread_rwlock_tryrdlock(&rwlock));
    show(pthread_rwlock_trywrlock(&rwlock) == EBUSY);
    pthread_create(&thread, NULL, other, NULL);
    pthread_join(thread, NULL);
    show(pthread_rwlock_unlock(&rwlock));
    show(pthread_rwlock_unlock(&rwlock));
    show(pthread_rwlock_wrlock(&rwlock));
    show(pthread_rwlock_tryrdlock(&rwlock) == EBUSY);
    show(pthread_rwlock_wrlock(&rwlock) == EDEADLK);
    show(pthread_rwlock_rdlock(&rwlock) == EDEADLK);
    show(pthread_rwlock_timedrdlock(&rwlock, &past) == EDEADLK);
    show(pthread_rwlock_unlock(&rwlock));
    show(pthread_rwlock_destroy(&rwlock));
}

int main(void)
{
    static int names[3] = {0, 1, 2};
    pthread_t threads[3];
    rwlocks();
    show(pthread_spin_init(&spin, PTHREAD_PROCESS_PRIVATE));
    show(pthread_spin_lock(&spin));
    show(pthread_spin_trylock(&spin) == EBUSY);
    show(pthread_spin_unlock(&spin));
    show(pthread_barrier_init(&barrier, NULL, 0) == EINVAL);
    show(pthread_barrier_init(&barrier, NULL, 3));
    for (int i = 0; i < 3; i++)
        pthread_create(&threads[i], NULL, waits, &names[i]);
    for (int i = 0; i < 3; i++)
        pthread_join(threads[i], NULL);
    printf("rounds %d %d %d %d %d\n", count, last, sums[0], sums[1], sums[2]);
    show(pthread_barrier_destroy(&barrier));
    show(pthread_spin_destroy(&spin));
    return 0;
}
