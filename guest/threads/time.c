/* Time. A thread that sleeps may go on at any moment, as one that doesn't sleep may wait: so to sleep is to do nothing. */
#include "layer.h"
#include "include/errno.h"
#include "include/time.h"
#include "include/unistd.h"

enum { CLOCK = 4, MILLISECONDS = 1000, NANOSECONDS_OF_ONE = 1000000, NANOSECONDS = 1000000000 };

int ir_timed_out(const struct timespec *time)
{
    return ir_read(&time->tv_nsec) < NANOSECONDS ? ETIMEDOUT : EINVAL;
}

/* The milliseconds since the recording began, as seconds and nanoseconds. */
static two_words now(void)
{
    ir_settle();
    return call_world(CLOCK);
}

time_t time(time_t *to)
{
    word seconds = (word)now() / MILLISECONDS;
    if (to)
        ir_write(to, seconds);
    return (time_t)seconds;
}

int clock_gettime(clockid_t clock, struct timespec *to)
{
    word passed = (word)now();
    (void)clock;
    ir_write(&to->tv_sec, passed / MILLISECONDS);
    ir_write(&to->tv_nsec, passed % MILLISECONDS * NANOSECONDS_OF_ONE);
    return 0;
}

int timespec_get(struct timespec *to, int base)
{
    clock_gettime(CLOCK_REALTIME, to);
    return base;
}

int nanosleep(const struct timespec *time, struct timespec *left)
{
    (void)time;
    (void)left;
    ir_settle();
    return 0;
}

int usleep(unsigned microseconds)
{
    (void)microseconds;
    ir_settle();
    return 0;
}

unsigned sleep(unsigned seconds)
{
    (void)seconds;
    ir_settle();
    return 0;
}
