/* sched_yield: any thread may go on at any moment, so it does nothing. */
#ifndef IR_SCHED_H
#define IR_SCHED_H
int sched_yield(void);
#endif
