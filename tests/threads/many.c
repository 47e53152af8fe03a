/* Fifteen threads and main. */
#include <pthread.h>
#include <stdatomic.h>
#include <stdio.h>

#define THREADS 15

static atomic_int sum;
static int squares[THREADS];

static void *run(void *argument)
{
    int mine = *(int *)argument;
    squares[mine] = mine * mine;
    atomic_fetch_add(&sum, mine);
    return argument;
}

int main(void)
{
    static int names[THREADS];
    pthread_t threads[THREADS];
    int all = 0;
    for (int i = 0; i < THREADS; i++) {
        names[i] = i;
        pthread_create(&threads[i], NULL, run, &names[i]);
    }
    for (int i = THREADS; i-- > 0;) {
        void *result;
        pthread_join(threads[i], &result);
        all += *(int *)result;
    }
    for (int i = 0; i < THREADS; i++)
        all += squares[i];
    printf("%d %d\n", sum, all);
    return 0;
}
