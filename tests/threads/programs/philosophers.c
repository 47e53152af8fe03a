/* Philosophers at a table: each takes the fork at the left first. Fault: a hang. */
#include <pthread.h>

#ifndef COUNT
#define COUNT 3
#endif

static pthread_mutex_t forks[COUNT];
static int meals[COUNT];

static void *dine(void *argument)
{
    int mine = *(int *)argument, left = mine, right = (mine + 1) % COUNT;
#ifdef REPAIRED
    if (left > right) {
        left = right;
        right = mine;
    }
#endif
    pthread_mutex_lock(&forks[left]);
    pthread_mutex_lock(&forks[right]);
    meals[mine]++;
    pthread_mutex_unlock(&forks[right]);
    pthread_mutex_unlock(&forks[left]);
    return NULL;
}

int main(void)
{
    static int names[COUNT];
    pthread_t threads[COUNT];
    for (int i = 0; i < COUNT; i++)
        pthread_mutex_init(&forks[i], NULL);
    for (int i = 0; i < COUNT; i++) {
        names[i] = i;
        pthread_create(&threads[i], NULL, dine, &names[i]);
    }
    for (int i = 0; i < COUNT; i++)
        pthread_join(threads[i], NULL);
    return 0;
}
