/* Money is moved between two accounts, and an audit adds both. With -DCOARSE a single lock guards them; otherwise each account has a lock of its own.

   What is wrong with two locks: whoever needs both accounts takes one lock, frees it, and takes the other. So the audit may count the money in
   both accounts, or in neither. -DREPAIRED holds both locks, and takes the one of account 0 first. */
#include <pthread.h>
#include <stdio.h>

static int balance[2] = {100, 0};

#ifdef COARSE
static pthread_mutex_t lock = PTHREAD_MUTEX_INITIALIZER;

static void move(int amount)
{
    pthread_mutex_lock(&lock);
    balance[0] -= amount;
    balance[1] += amount;
    pthread_mutex_unlock(&lock);
}

static int sum(void)
{
    pthread_mutex_lock(&lock);
    int both = balance[0] + balance[1];
    pthread_mutex_unlock(&lock);
    return both;
}
#else
static pthread_mutex_t locks[2] = {PTHREAD_MUTEX_INITIALIZER, PTHREAD_MUTEX_INITIALIZER};

#ifdef REPAIRED
static void lock_both(void)
{
    pthread_mutex_lock(&locks[0]);
    pthread_mutex_lock(&locks[1]);
}

static void unlock_both(void)
{
    pthread_mutex_unlock(&locks[1]);
    pthread_mutex_unlock(&locks[0]);
}

static void move(int amount)
{
    lock_both();
    balance[0] -= amount;
    balance[1] += amount;
    unlock_both();
}

static int sum(void)
{
    lock_both();
    int both = balance[0] + balance[1];
    unlock_both();
    return both;
}
#else
static void change(int account, int amount)
{
    pthread_mutex_lock(&locks[account]);
    balance[account] += amount;
    pthread_mutex_unlock(&locks[account]);
}

static int balance_of(int account)
{
    pthread_mutex_lock(&locks[account]);
    int found = balance[account];
    pthread_mutex_unlock(&locks[account]);
    return found;
}

static void move(int amount)
{
    change(0, -amount);
    change(1, amount);
}

static int sum(void)
{
    return balance_of(0) + balance_of(1);
}
#endif
#endif

static void *audit(void *unused)
{
    printf("in both %d\n", sum());
    return unused;
}

int main(void)
{
    pthread_t thread;
    pthread_create(&thread, NULL, audit, NULL);
    move(40);
    pthread_join(thread, NULL);
    return 0;
}
