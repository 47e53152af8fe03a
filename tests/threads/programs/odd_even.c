/* Two threads print in turns. The turn is given away before the work is done. */
#include <assert.h>
#include <pthread.h>
#include <semaphore.h>

static sem_t turns[2];
static int log_[4], length;

static void *run(void *argument)
{
    int mine = *(int *)argument;
    for (int i = 0; i < 2; i++) {
        sem_wait(&turns[mine]);
#ifdef REPAIRED
        log_[length++] = mine;
        sem_post(&turns[1 - mine]);
#else
        sem_post(&turns[1 - mine]);
        log_[length++] = mine;
#endif
    }
    return NULL;
}

int main(void)
{
    static int names[2] = {0, 1};
    pthread_t threads[2];
    sem_init(&turns[0], 0, 1);
    sem_init(&turns[1], 0, 0);
    for (int i = 0; i < 2; i++)
        pthread_create(&threads[i], NULL, run, &names[i]);
    for (int i = 0; i < 2; i++)
        pthread_join(threads[i], NULL);
    for (int i = 0; i < 4; i++)
        assert(log_[i] == i % 2);
    return 0;
}
