/* Threads that create and join threads themselves. */
#include <pthread.h>
#include <stdint.h>
#include <stdio.h>

static pthread_mutex_t lock = PTHREAD_MUTEX_INITIALIZER;
static int sum;

static void add(int by)
{
    pthread_mutex_lock(&lock);
    sum += by;
    pthread_mutex_unlock(&lock);
}

static void *leaf(void *argument)
{
    add((int)(intptr_t)argument);
    return (void *)((intptr_t)argument * 10);
}

static void *branch(void *argument)
{
    pthread_t threads[2];
    void *one, *two;
    pthread_create(&threads[0], NULL, leaf, argument);
    pthread_create(&threads[1], NULL, leaf, (void *)((intptr_t)argument + 1));
    pthread_join(threads[0], &one);
    pthread_join(threads[1], &two);
    return (void *)((intptr_t)one + (intptr_t)two);
}

int main(void)
{
    pthread_t threads[2];
    void *results[2];
    pthread_create(&threads[0], NULL, branch, (void *)1);
    pthread_create(&threads[1], NULL, branch, (void *)3);
    pthread_join(threads[1], &results[1]);
    pthread_join(threads[0], &results[0]);
    printf("%d %d %d\n", sum, (int)(intptr_t)results[0], (int)(intptr_t)results[1]);
    return 0;
}
