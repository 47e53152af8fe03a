/* A deposit, a withdrawal and a check. The check takes the deposit for a second withdrawal. */
#include <assert.h>
#include <pthread.h>
#include <stdbool.h>

static pthread_mutex_t lock = PTHREAD_MUTEX_INITIALIZER;
static int first = 1, added = 2, taken = 4, balance;
static bool has_added, has_taken;

static void *deposit(void *unused)
{
    pthread_mutex_lock(&lock);
    balance += added;
    has_added = true;
    pthread_mutex_unlock(&lock);
    return unused;
}

static void *withdraw(void *unused)
{
    pthread_mutex_lock(&lock);
    balance -= taken;
    has_taken = true;
    pthread_mutex_unlock(&lock);
    return unused;
}

static void *check(void *unused)
{
    pthread_mutex_lock(&lock);
#ifdef REPAIRED
    if (has_added && has_taken)
        assert(balance == first + added - taken);
#else
    if (has_added && has_taken)
        assert(balance == first - added - taken);
#endif
    pthread_mutex_unlock(&lock);
    return unused;
}

int main(void)
{
    pthread_t threads[3];
    balance = first;
    pthread_create(&threads[0], NULL, check, NULL);
    pthread_create(&threads[1], NULL, deposit, NULL);
    pthread_create(&threads[2], NULL, withdraw, NULL);
    for (int i = 0; i < 3; i++)
        pthread_join(threads[i], NULL);
    return 0;
}
