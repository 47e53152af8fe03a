/* The functions of ir.h that aren't inlined, and the four that compilers call of themselves, to copy a struct or to clear an array. */
#define IR_BOTH_FORMS_
#include "ir.h"

__attribute__((noinline)) void ir_pause(ir_word turns)
{
    while (turns--)
        __asm__ volatile("");
}

__attribute__((noinline)) void ir_puts(const char *text)
{
    while (*text)
        ir_putc(*text++);
}

/* Counts the tries that are refused, up to the first that isn't. */
__attribute__((noinline)) ir_word ir_chosen_(ir_word object, ir_word limit)
{
    for (ir_word refused = 0; refused + 1 < limit; refused++)
        if (ir_try_write(object)) {
            ir_leave(object);
            return refused;
        }
    return limit - 1;
}

/* Keeps a loop as it is: a compiler that knew it again would make a call of the function that it is in. */
#define IR_LOOP_ __asm__ volatile("" ::: "memory")

__attribute__((used)) void *memcpy(void *restrict to, const void *restrict from, __SIZE_TYPE__ size)
{
    char *t = to;
    const char *f = from;
    while (size--) {
        *t++ = *f++;
        IR_LOOP_;
    }
    return to;
}

__attribute__((used)) void *memmove(void *to, const void *from, __SIZE_TYPE__ size)
{
    char *t = to;
    const char *f = from;
    for (__SIZE_TYPE__ i = 0; t < f && i < size; i++) {
        t[i] = f[i];
        IR_LOOP_;
    }
    while (t > f && size--) {
        t[size] = f[size];
        IR_LOOP_;
    }
    return to;
}

__attribute__((used)) void *memset(void *to, int byte, __SIZE_TYPE__ size)
{
    char *t = to;
    while (size--) {
        *t++ = (char)byte;
        IR_LOOP_;
    }
    return to;
}

__attribute__((used)) int memcmp(const void *a, const void *b, __SIZE_TYPE__ size)
{
    const unsigned char *x = a, *y = b;
    for (; size--; x++, y++)
        if (*x != *y)
            return *x - *y;
    return 0;
}
