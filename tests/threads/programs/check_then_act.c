/* Two payers look whether there is enough money, and then take it. Between the two the other may take it. */
#include <assert.h>
#include <pthread.h>

static pthread_mutex_t lock = PTHREAD_MUTEX_INITIALIZER;
static int money = 100;

static int is_enough(int amount)
{
    pthread_mutex_lock(&lock);
    int enough = money >= amount;
    pthread_mutex_unlock(&lock);
    return enough;
}

static void take(int amount)
{
    pthread_mutex_lock(&lock);
#ifdef REPAIRED
    if (money >= amount)
#endif
        money -= amount;
    pthread_mutex_unlock(&lock);
}

static void *pay(void *unused)
{
    if (is_enough(60))
        take(60);
    return unused;
}

int main(void)
{
    pthread_t threads[2];
    for (int i = 0; i < 2; i++)
        pthread_create(&threads[i], NULL, pay, NULL);
    for (int i = 0; i < 2; i++)
        pthread_join(threads[i], NULL);
    assert(money == 40);
    return 0;
}
