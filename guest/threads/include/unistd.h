/* The few of unistd.h that make sense in a guest. */
#ifndef IR_UNISTD_H
#define IR_UNISTD_H
int usleep(unsigned microseconds);
unsigned sleep(unsigned seconds);
void _exit(int code) __attribute__((noreturn));
#endif
