/* Semaphores. */
#ifndef IR_SEMAPHORE_H
#define IR_SEMAPHORE_H
#include <time.h>
typedef struct {
    unsigned value;
} sem_t;
int sem_init(sem_t *semaphore, int is_shared, unsigned value);
int sem_destroy(sem_t *semaphore);
int sem_wait(sem_t *semaphore);
int sem_trywait(sem_t *semaphore);
int sem_timedwait(sem_t *semaphore, const struct timespec *time);
int sem_post(sem_t *semaphore);
int sem_getvalue(sem_t *semaphore, int *value);
#endif
