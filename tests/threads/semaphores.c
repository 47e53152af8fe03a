/* Semaphores, and their errors. */
#include <errno.h>
#include <limits.h>
#include <pthread.h>
#include <semaphore.h>
#include <stdio.h>
#include <time.h>

static sem_t first, second, most;
static int log_[6], length;

static void *run(void *unused)
{
    for (int i = 0; i < 3; i++) {
        sem_wait(&first);
        log_[length++] = 1;
        sem_post(&second);
    }
    return unused;
}

int main(void)
{
    struct timespec past = {0, 0};
    pthread_t thread;
    int value = -1;
    sem_init(&first, 0, 2);
    printf("try %d", sem_trywait(&first));
    printf(" %d", sem_trywait(&first));
    printf(" %d", sem_trywait(&first));
    printf(" %d", errno == EAGAIN);
    printf(" time %d", sem_timedwait(&first, &past));
    printf(" %d\n", errno == ETIMEDOUT);
    sem_post(&first);
    sem_getvalue(&first, &value);
    printf("value %d", value);
    printf(" init %d", sem_init(&most, 0, (unsigned)INT_MAX + 1));
    printf(" %d", errno == EINVAL);
    sem_init(&most, 0, INT_MAX);
    printf(" post %d", sem_post(&most));
    printf(" %d\n", errno == EOVERFLOW);
    sem_wait(&first);
    sem_init(&second, 0, 1);
    pthread_create(&thread, NULL, run, NULL);
    for (int i = 0; i < 3; i++) {
        sem_wait(&second);
        log_[length++] = 0;
        sem_post(&first);
    }
    pthread_join(thread, NULL);
    for (int i = 0; i < 6; i++)
        printf("%d ", log_[i]);
    printf("destroy %d\n", sem_destroy(&first));
    return 0;
}
