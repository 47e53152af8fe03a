/* main ends by pthread_exit, and its threads go on. The last ends the process. */
#include <pthread.h>
#include <semaphore.h>
#include <stdio.h>

static sem_t go;

static void *run(void *unused)
{
    sem_wait(&go);
    printf("thread is last\n");
    return unused;
}

int main(void)
{
    pthread_t thread;
    sem_init(&go, 0, 0);
    pthread_create(&thread, NULL, run, NULL);
    sem_post(&go);
    pthread_exit(NULL);
}
