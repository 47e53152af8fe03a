/* The heap, the end of the process, and a few functions of numbers. */
#ifndef IR_STDLIB_H
#define IR_STDLIB_H
#include <stddef.h>
#define EXIT_SUCCESS 0
#define EXIT_FAILURE 1
#define RAND_MAX 0x7fffffff
void *malloc(size_t size);
void *calloc(size_t count, size_t size);
void *realloc(void *pointer, size_t size);
void free(void *pointer);
void abort(void) __attribute__((noreturn));
void exit(int code) __attribute__((noreturn));
void _Exit(int code) __attribute__((noreturn));
int rand(void);
int rand_r(unsigned *from);
void srand(unsigned from);
int abs(int number);
long labs(long number);
int atoi(const char *text);
#endif
