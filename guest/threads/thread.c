/* Threads: how they begin, end, and wait for each other.

   Each thread but thread 0 has a gate, an object. Its words are how far the thread is, what it runs, the argument, the result, and
   whether it is detached. There are two forms:

   - If thread 0 alone creates and joins, thread 0 holds the gates of all threads that it hasn't created. It leaves the gate of a thread to
     create it, and the thread then holds its gate as long as it lives. So no thread polls at its start, or to join.
   - In the nested form, ir_nested, any thread creates and joins. Threads poll their gates, and the gates of those that they join. */
#include "layer.h"
#include "include/errno.h"
#include "include/pthread.h"

enum { STATE, FUNCTION, ARGUMENT, RESULT, FLAGS, CREATED_BY_NOW };
enum { UNUSED, HELD, CREATED, RUNNING, FINISHED };
enum { DETACHED = 1, JOINED = 2 };

typedef void *routine(void *);

int main(int, char **);

char *const ir_arguments[] = {"guest", 0};

/* How many threads thread 0 has created in the first form, and the flags that it knows of each. */
static OWN word created;
static OWN unsigned char flags[16];

/* Gates have falling numbers, so that a thread that holds its gate may enter those of threads created before. */
IR_CALL word gate_of(word thread)
{
    return NUMBER(ir_threads) - 1 - thread;
}

/* pthread_t of a thread: 0 is none. */
IR_CALL pthread_t name_of(word thread)
{
    return thread + 1;
}

/* ---- Start */

/* Copies the thread-local variables' first values to the low end of this thread's stack. */
static void copy_thread_locals(void)
{
    word *to = (word *)ir_own_low;
    for (word *from = (word *)NUMBER(ir_tls); from < (word *)NUMBER(ir_tls_filled); from++)
        *to++ = *from;
}

/* Thread 0 takes the gate of each other thread, until it creates it. */
static void take_gates(void)
{
    for (word thread = NUMBER(ir_threads) - 1; thread; thread--) {
        gate_write(gate_of(thread));
        call_put(gate_of(thread), STATE, HELD);
    }
}

/* Waits until this thread is created, and is in its gate then. */
static void wait_to_be_created(word gate)
{
    for (;;) {
        gate_write(gate);
        end_if_over(gate);
        word state = call_get(gate, STATE);
        if (state == CREATED)
            return;
        if (state == HELD)
            call_end(0); /* thread 0 has ended */
        call_leave(gate);
    }
}

static two_words as_two(word low, word high)
{
    return low | (two_words)high << 32;
}

/* What this thread runs: the argument, and the function in the upper word. */
two_words ir_prepare(void)
{
    register word number __asm__("a0");
    __asm__ volatile("li a7, 12\n\tecall" : "=r"(number) : : "a7");
    ir_number = number;
    ir_own_low = NUMBER(ir_stack_top) - (number + 1) * NUMBER(ir_slice);
    copy_thread_locals();
    if (!ir_number) {
        if (!NUMBER(ir_nested))
            take_gates();
        return as_two(1, (word)main);
    }
    word gate = gate_of(ir_number);
    wait_to_be_created(gate);
    call_put(gate, STATE, RUNNING);
    two_words runs = as_two(call_get(gate, ARGUMENT), call_get(gate, FUNCTION));
    if (NUMBER(ir_nested))
        call_leave(gate);
    return runs;
}

/* ---- End */

/* Whether a thread that thread 0 created may still run, as far as thread 0 knows. */
static int may_run(void)
{
    word joined = 0;
    for (word thread = 1; thread <= created; thread++)
        joined += flags[thread] / JOINED;
    return joined < created;
}

void ir_exit(word code)
{
    if (ir_number || NUMBER(ir_nested) || may_run())
        ir_over(code);
    else
        ir_drain();
    call_end(code);
}

/* Puts the result of this thread into its gate. */
static void finish(word result)
{
    word gate = gate_of(ir_number);
    if (NUMBER(ir_nested))
        enter_write(gate);
    call_put(gate, RESULT, result);
    call_put(gate, STATE, FINISHED);
}

/* Waits for a thread in the nested form, and says whether it was there. */
static int wait_for(word thread)
{
    for (int again = 0;; again = 1) {
        enter_read(gate_of(thread));
        word state = call_get(gate_of(thread), STATE);
        call_leave(gate_of(thread));
        if (state == UNUSED || state == FINISHED)
            return again;
        ir_pause();
    }
}

/* Waits until no other thread runs, in the nested form. */
static void wait_for_all(void)
{
    word quiet = 0;
    for (word thread = 1; quiet < NUMBER(ir_threads); thread = thread % (NUMBER(ir_threads) - 1) + 1)
        quiet = wait_for(thread) ? 0 : quiet + 1;
}

void pthread_exit(void *result)
{
    if (ir_destroy_values)
        ir_destroy_values();
    ir_settle();
    ir_drain();
    if (ir_number)
        finish((word)result);
    else if (NUMBER(ir_nested) && NUMBER(ir_threads) > 1) {
        wait_for_all();
        ir_over(0);
    }
    call_end(0);
}

void ir_returned(word result)
{
    if (ir_number)
        pthread_exit((void *)result);
    ir_settle();
    ir_exit(result & 255);
}

/* ---- Creation */

/* The number of the thread that is created next, in the nested form. */
static word next_nested(void)
{
    word gate = gate_of(1), number = NUMBER(ir_threads);
    if (number == 1)
        return 1;
    enter_write(gate);
    number = call_get(gate, CREATED_BY_NOW) + 1;
    call_put(gate, CREATED_BY_NOW, number);
    call_leave(gate);
    return number;
}

static word next_thread(void)
{
    if (NUMBER(ir_nested))
        return next_nested();
    if (ir_number)
        ir_wrong("a thread that main didn't start as the first creates another: ir-cc --nested lets it");
    return ++created;
}

int pthread_create(pthread_t *name, const pthread_attr_t *attributes, routine *function, void *argument)
{
    ir_settle();
    ir_drain();
    word is_detached = attributes ? ir_read(attributes) : 0, number = next_thread();
    if (number >= NUMBER(ir_threads))
        ir_wrong("there are too few threads: ir-cc --threads N has N with main, at most 16");
    ir_write(name, name_of(number));
    word gate = gate_of(number);
    if (NUMBER(ir_nested))
        enter_write(gate);
    flags[number] = (unsigned char)is_detached;
    call_put(gate, FUNCTION, (word)function);
    call_put(gate, ARGUMENT, (word)argument);
    call_put(gate, FLAGS, is_detached);
    call_put(gate, STATE, CREATED);
    call_leave(gate);
    return 0;
}

/* ---- Joins */

/* How a thread that holds its gate while it lives has ended, and its result. One that hasn't entered its gate yet is waited for. */
static word state_at_end(word gate, word *result)
{
    for (;;) {
        gate_read(gate);
        word state = call_get(gate, STATE);
        *result = call_get(gate, RESULT);
        call_leave(gate);
        if (state != CREATED)
            return state;
        ir_pause();
    }
}

static int join_held(word thread, word *result)
{
    if (ir_number)
        ir_wrong("a thread other than main joins: ir-cc --nested lets it");
    if (thread > created)
        return ESRCH;
    if (flags[thread])
        return EINVAL;
    if (state_at_end(gate_of(thread), result) != FINISHED) {
        ir_over(ABORTED); /* it ended by a fault, or the process is over */
        call_end(ABORTED);
    }
    flags[thread] |= JOINED;
    return 0;
}

/* The result of a thread in the nested form. */
static int join_nested(word thread, word *result)
{
    word gate = gate_of(thread);
    for (;;) {
        enter_write(gate);
        word state = call_get(gate, STATE), flag = call_get(gate, FLAGS);
        *result = call_get(gate, RESULT);
        if (state == FINISHED && !flag)
            call_put(gate, FLAGS, JOINED);
        call_leave(gate);
        if (state == UNUSED)
            return ESRCH;
        if (flag)
            return EINVAL;
        if (state == FINISHED)
            return 0;
        ir_pause();
    }
}

int pthread_join(pthread_t name, void **result)
{
    ir_settle();
    ir_drain();
    word thread = name - 1, returned;
    if (thread == ir_number)
        return EDEADLK;
    if (thread >= NUMBER(ir_threads))
        return ESRCH;
    if (!thread)
        ir_wrong("a thread joins main's: no thread can");
    int error = NUMBER(ir_nested) ? join_nested(thread, &returned) : join_held(thread, &returned);
    if (!error && result)
        ir_write(result, returned);
    return error;
}

/* The flags of a thread, and then it is detached. */
static word detach(word thread)
{
    word gate = gate_of(thread), before = flags[thread];
    if (!NUMBER(ir_nested) && thread != ir_number) {
        flags[thread] |= DETACHED;
        return before;
    }
    if (NUMBER(ir_nested))
        enter_write(gate);
    before = call_get(gate, FLAGS);
    call_put(gate, FLAGS, before | DETACHED);
    if (NUMBER(ir_nested))
        call_leave(gate);
    return before;
}

int pthread_detach(pthread_t name)
{
    ir_settle();
    word thread = name - 1;
    if (thread >= NUMBER(ir_threads))
        return ESRCH;
    return thread && detach(thread) ? EINVAL : 0;
}

pthread_t pthread_self(void) { return name_of(ir_number); }
int pthread_equal(pthread_t one, pthread_t other) { return one == other; }
