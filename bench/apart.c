/* How many times the work of one thread four threads do in its time that share nothing, on this machine.

   One thread works for 0.6 seconds, as a fit does before a replay, and then does a piece of work of some 0.2 seconds alone. Then it and three new
   threads do that piece each, at once. Prints four times the time of the first, by the time of the second. */
#include <pthread.h>
#include <stdint.h>
#include <stdio.h>
#include <stdlib.h>
#include <time.h>

enum { THREADS = 4 };

static uint64_t turns = 10000000;

static double now(void)
{
    struct timespec time;
    clock_gettime(CLOCK_MONOTONIC, &time);
    return (double)time.tv_sec + (double)time.tv_nsec / 1e9;
}

static void *work(void *unused)
{
    volatile uint64_t end;
    uint64_t x = 88172645463325252u;
    for (uint64_t turn = 0; turn < turns; turn++) {
        x ^= x << 13;
        x ^= x >> 7;
        x ^= x << 17;
    }
    end = x;
    (void)end;
    return unused;
}

static double time_of_one(void)
{
    double start = now();
    work(NULL);
    return now() - start;
}

static double time_of_all(void)
{
    pthread_t others[THREADS - 1];
    double start = now();
    for (int other = 0; other < THREADS - 1; other++)
        if (pthread_create(&others[other], NULL, work, NULL) != 0)
            exit(1);
    work(NULL);
    for (int other = 0; other < THREADS - 1; other++)
        pthread_join(others[other], NULL);
    return now() - start;
}

int main(void)
{
    turns = (uint64_t)((double)turns * 0.2 / time_of_one());
    for (double start = now(); now() - start < 0.6;)
        time_of_one();
    double one = time_of_one();
    printf("%.2f\n", THREADS * one / time_of_all());
    return 0;
}
