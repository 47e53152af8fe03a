/* A thread ends the process by exit. */
#include <pthread.h>
#include <stdio.h>
#include <stdlib.h>

static pthread_mutex_t lock = PTHREAD_MUTEX_INITIALIZER;

static void *run(void *unused)
{
    (void)unused;
    exit(7);
}

int main(void)
{
    pthread_t thread;
    printf("begin\n");
    fflush(stdout);
    pthread_mutex_lock(&lock);
    pthread_create(&thread, NULL, run, NULL);
    pthread_mutex_lock(&lock);
    printf("never\n");
    return 0;
}
