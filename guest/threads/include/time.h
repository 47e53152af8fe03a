/* Time, from the call CLOCK; and sleep, which does nothing. */
#ifndef IR_TIME_H
#define IR_TIME_H
#include <stddef.h>
typedef long time_t;
typedef int clockid_t;
struct timespec {
    time_t tv_sec;
    long tv_nsec;
};
#define CLOCK_REALTIME 0
#define CLOCK_MONOTONIC 1
#define TIME_UTC 1
time_t time(time_t *to);
int clock_gettime(clockid_t clock, struct timespec *to);
int timespec_get(struct timespec *to, int base);
int nanosleep(const struct timespec *time, struct timespec *left);
#endif
