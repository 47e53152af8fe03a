/* How a process ends. */
#include "layer.h"
#include "include/stdio.h"
#include "include/stdlib.h"
#include "include/unistd.h"

/* Enters each object and stays there, so that no other thread goes on. The word that it puts is what they find when it has ended. */
static void tell(word object, word end, word code)
{
    for (; object < end; object++) {
        enter_write(object);
        call_put(object, OVER, code + 1);
    }
}

void ir_over(word code)
{
    ir_drain();
    if (NUMBER(ir_nested))
        tell(0, NUMBER(ir_threads) - 1, code);
    tell(NUMBER(ir_heap_object), NUMBER(ir_objects) + NUMBER(ir_spread), code);
}

/* Prints a text that no thread shares. */
static void print(const char *text)
{
    while (*text)
        call_print((unsigned char)*text++);
}

void ir_wrong(const char *what)
{
    print("ir: ");
    print(what);
    call_print('\n');
    ir_over(ABORTED);
    for (;;)
        __asm__ volatile("ebreak");
}

void ir_stray(word address, word size, int writes)
{
    word low = NUMBER(ir_stack_low), code = 0x10000;
    if (address - low < NUMBER(ir_shared) - low)
        ir_wrong("a variable on another thread's stack: make it global, or of main's frame: ir-cc --window N shares N bytes of that");
    if (address - code < NUMBER(ir_code_end) - code && !writes)
        return;
    if (address - low < 0x10000)
        return;
    ir_over(BAD_ACCESS); /* and the access that follows ends this thread, by 6 or 7 */
    (void)size;
}

void abort(void)
{
    ir_settle();
    ir_over(ABORTED);
    for (;;)
        __asm__ volatile("ebreak");
}

void ir_assertion_failed(const char *what, const char *file, int line, const char *function)
{
    ir_settle();
    printf("%s:%d: %s: Assertion `%s' failed.\n", file, line, function, what);
    abort();
}

void exit(int code)
{
    ir_settle();
    ir_exit((word)code & 255);
}

void _Exit(int code) { exit(code); }
void _exit(int code) { exit(code); }
