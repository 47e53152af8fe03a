/* Attributes of threads: whether one is detached. Each stack has one size, by ir-cc --stack. */
#include "layer.h"
#include "include/errno.h"
#include "include/pthread.h"

int pthread_attr_init(pthread_attr_t *attributes)
{
    ir_write(attributes, PTHREAD_CREATE_JOINABLE);
    return 0;
}

int pthread_attr_destroy(pthread_attr_t *attributes)
{
    (void)attributes;
    return 0;
}

int pthread_attr_setdetachstate(pthread_attr_t *attributes, int state)
{
    if (state != PTHREAD_CREATE_JOINABLE && state != PTHREAD_CREATE_DETACHED)
        return EINVAL;
    ir_write(attributes, (word)state);
    return 0;
}

int pthread_attr_getdetachstate(const pthread_attr_t *attributes, int *state)
{
    ir_write(state, ir_read(attributes));
    return 0;
}

int pthread_attr_setstacksize(pthread_attr_t *attributes, unsigned size)
{
    (void)attributes;
    (void)size;
    return 0;
}

int sched_yield(void)
{
    ir_settle();
    return 0;
}
