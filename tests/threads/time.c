/* Sleep and time make sense as far as they go on. */
#include <pthread.h>
#include <sched.h>
#include <stdio.h>
#include <stdlib.h>
#include <time.h>
#include <unistd.h>

static volatile int flag;

static void *set(void *unused)
{
    struct timespec little = {0, 1000};
    nanosleep(&little, NULL);
    usleep(1);
    flag = 1;
    return unused;
}

int main(void)
{
    struct timespec before, after;
    pthread_t thread;
    clock_gettime(CLOCK_MONOTONIC, &before);
    pthread_create(&thread, NULL, set, NULL);
    while (!flag)
        sched_yield();
    pthread_join(thread, NULL);
    clock_gettime(CLOCK_MONOTONIC, &after);
    printf("%d %d", after.tv_sec > before.tv_sec || (after.tv_sec == before.tv_sec && after.tv_nsec >= before.tv_nsec), sleep(0));
    srand(5);
    int one = rand(), other = rand();
    srand(5);
    printf(" %d", one == rand());
    printf(" %d %d\n", other == rand(), one >= 0 && other >= 0);
    time_t now = time(NULL);
    printf("%d\n", time(&now) >= 0);
    return 0;
}
