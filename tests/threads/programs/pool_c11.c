/* Two workers of threads.h and two jobs. The last job is announced to one worker only, who may be the one that has had its own. Fault: a hang. */
#include <assert.h>
#include <threads.h>

static mtx_t lock;
static cnd_t changed;
static int jobs, closed, done;

static int work(void *unused)
{
    (void)unused;
    for (;;) {
        mtx_lock(&lock);
        while (jobs == 0 && !closed)
            cnd_wait(&changed, &lock);
        int has_job = jobs > 0;
        if (has_job) {
            jobs--;
            done++;
        }
        mtx_unlock(&lock);
        if (!has_job)
            return 7;
    }
}

int main(void)
{
    thrd_t threads[2];
    int result;
    mtx_init(&lock, mtx_plain);
    cnd_init(&changed);
    for (int i = 0; i < 2; i++)
        thrd_create(&threads[i], work, 0);
    mtx_lock(&lock);
    jobs = 1;
    closed = 1;
#ifdef REPAIRED
    cnd_broadcast(&changed);
#else
    cnd_signal(&changed);
#endif
    mtx_unlock(&lock);
    for (int i = 0; i < 2; i++) {
        thrd_join(threads[i], &result);
        assert(result == 7);
    }
    assert(done == 1);
    return 0;
}
