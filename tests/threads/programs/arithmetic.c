/* Two threads add in turns. The sum is looked at before the second has had its last turn. */
#include <assert.h>
#include <pthread.h>

#define TURNS 2

static pthread_mutex_t lock = PTHREAD_MUTEX_INITIALIZER;
static pthread_cond_t turn_is_over = PTHREAD_COND_INITIALIZER;
static int turn, sum;

static void *add(void *argument)
{
    int mine = *(int *)argument;
    for (int i = 0; i < TURNS; i++) {
        pthread_mutex_lock(&lock);
        while (turn != mine)
            pthread_cond_wait(&turn_is_over, &lock);
        sum += mine + 1;
        turn = 1 - mine;
        pthread_cond_broadcast(&turn_is_over);
        pthread_mutex_unlock(&lock);
    }
    return NULL;
}

int main(void)
{
    static int names[2] = {0, 1};
    pthread_t threads[2];
    for (int i = 0; i < 2; i++)
        pthread_create(&threads[i], NULL, add, &names[i]);
    pthread_join(threads[0], NULL);
#ifdef REPAIRED
    pthread_join(threads[1], NULL);
#endif
    assert(sum == 3 * TURNS);
#ifndef REPAIRED
    pthread_join(threads[1], NULL);
#endif
    return 0;
}
