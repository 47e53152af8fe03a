/* What the files of the layer share.

   The same address is each thread's own copy of a shared variable, and a word of an object is the variable. The compiler announces each
   access by a call. A read that is announced is fetched from the object into the own copy, from which the program loads it. A write that
   is announced is stored by the program into the own copy after that, so it is put into the object by the next call of the layer. */
#ifndef IR_LAYER_H
#define IR_LAYER_H

#include "calls.h"

/* A variable of the layer that each thread has for itself. */
#define OWN __attribute__((section(".bss.ir_own")))

/* Keeps a loop as it is: a compiler that knew it again would make a call of the function that it is in. */
#define KEEP_LOOP __asm__ volatile("" ::: "memory")

/* The linker's numbers. One that may be 0 is weak, since the address of anything else isn't 0 for a compiler. */
extern char ir_shared[], ir_shared_end[], ir_spread[], ir_stack_low[], ir_stack_top[], ir_slice[], ir_threads[], ir_code_end[], ir_heap[], ir_heap_end[],
    ir_tls[], ir_tls_filled[], ir_tls_end[];
extern char ir_objects[] __attribute__((weak)), ir_heap_object[] __attribute__((weak)), ir_nested[] __attribute__((weak)),
    ir_bits[] __attribute__((weak)), ir_frames[] __attribute__((weak));
#define NUMBER(symbol) ((word)(symbol))

/* The word of each shared object that says how the process ended: 0, or the code and 1. */
enum { OVER = 15 };

/* The codes of a process that is ended by abort, and by an access to an address that isn't there. */
enum { ABORTED = 134, BAD_ACCESS = 139 };

/* This thread's number, and the low end of its slice of the stacks. */
extern word ir_number, ir_own_low;

/* Whether an address is in the shared range. */
IR_CALL int is_shared(word address)
{
    return address - NUMBER(ir_shared) < NUMBER(ir_shared_end) - NUMBER(ir_shared);
}

/* Whether an own copy may be cleared when it isn't needed any more. In thread 0 the window is its stack, and what is there now may be another
   function's. */
IR_CALL int may_clear(word address)
{
    return address >= NUMBER(ir_stack_top) || ir_number;
}

/* The object of a shared word, and its index there. The two words of a pair are in one object, and pairs are spread over the objects. */
IR_CALL word object_of(word address)
{
    return NUMBER(ir_objects) + ((address - NUMBER(ir_shared)) >> 3) % NUMBER(ir_spread);
}

IR_CALL word offset_of(word address)
{
    return (address - NUMBER(ir_shared)) >> 3;
}

IR_CALL word index_at(word address, word offset)
{
    return offset / NUMBER(ir_spread) * 2 + (address >> 2 & 1);
}

IR_CALL word index_of(word address)
{
    return index_at(address, offset_of(address));
}

/* The bits of the bytes from..end of a word. */
IR_CALL word mask_of(word from, word end)
{
    return (end == 4 ? ~0u : ~(~0u << end * 8)) & ~0u << from * 8;
}

/* An entry by a gate of begin.S. All registers that a callee may change are dead there, but those of values that are kept: they stay as
   they are. Values that aren't needed are 0, as dead registers are. ra is dead too, but in a leaf, which needs no frame so. */
#define IR_DEAD "a1", "a2", "a6", "a7", "t0", "t1", "t2", "t3", "t4", "t5", "t6", "memory"
#define IR_ENTER(gate, object, one, two, three) IR_ENTER_BY("li ra, 0\n\tjal t0, " #gate, object, one, two, three, "ra")
#define IR_ENTER_LEAF(gate, object, one, two, three) IR_ENTER_BY("jal t0, " #gate, object, one, two, three, "cc")
#define IR_ENTER_BY(code, object, one, two, three, link) \
    do { \
        IR_REGISTER(a0, object); \
        IR_REGISTER(a3, one); \
        IR_REGISTER(a4, two); \
        IR_REGISTER(a5, three); \
        __asm__ volatile(code : "+r"(a0_), "+r"(a3_), "+r"(a4_), "+r"(a5_) : : IR_DEAD, link); \
        object = a0_; \
        one = a3_; \
        two = a4_; \
        three = a5_; \
    } while (0)

/* Ends this thread if the process is over, after it entered an object. */
IR_CALL void end_if_over(word object)
{
    word over = call_get(object, OVER);
    if (__builtin_expect(over != 0, 0))
        call_end(over - 1);
}

/* Enters an object for reading or writing, also if the process is over. */
IR_CALL void gate_read(word object)
{
    word one = 0, two = 0, three = 0;
    IR_ENTER(ir_gate_read, object, one, two, three);
}

IR_CALL void gate_write(word object)
{
    word one = 0, two = 0, three = 0;
    IR_ENTER(ir_gate_write, object, one, two, three);
}

IR_CALL void enter_read(word object)
{
    gate_read(object);
    end_if_over(object);
}

IR_CALL void enter_write(word object)
{
    gate_write(object);
    end_if_over(object);
}

/* ---- buffer.c: the stores of this thread that aren't in their objects yet, in the form of --tso. */
#ifdef IR_TSO
/* Adds a store from the own copy. */
void ir_buffer(word address, word size);

/* Takes stores that wait into an own copy that was fetched. */
void ir_forward(word address, word size);

/* Puts as many of the stores as a free choice says, and all of them. */
void ir_drain_some(void);
void ir_drain(void);
#else
#define ir_buffer(address, size) ir_put(address, size)
#define ir_drain_some() ((void)0)
#define ir_drain() ((void)0)
#endif

/* ---- shared.c and access.c */

/* The write that was announced: where, how many bytes, and where the program goes on, or 0 if the bytes were fetched for a bit-field. A size
   of 0 is none. */
extern struct ir_written {
    word address, size, after;
} ir_written;

/* The word of the own copy that was read last, or 0, and how many bytes after it were read too. */
extern struct ir_seen {
    word address, more;
} ir_seen;

/* Puts what was written last, and clears what was read last. */
void ir_settle_now(void);

/* Each function of the layer begins so. */
IR_CALL void ir_settle(void)
{
#ifndef IR_TSO
    if (ir_written.size | ir_seen.address)
#endif
        ir_settle_now();
}

/* Fetches bytes of the shared range into the own copy, and puts them from there. The rest of the bytes isn't touched. */
void ir_fetch(word address, word size);
void ir_put(word address, word size);

/* Clears an own copy that isn't needed any more. */
void ir_clear(word address, word size);

/* Whether the compiler announced that it writes these bytes, and hasn't yet. */
int ir_is_announced(word address, word size);

/* Ends the process if there is no such address, or another thread's stack has it. */
void ir_stray(word address, word size, int writes);

/* Whether an access is to this thread's own stack, or to another place that no thread shares. If it is a bad one the process ends. */
IR_CALL int is_private(word address, word size, int writes)
{
    if (__builtin_expect(is_shared(address), 1))
        return 0;
    if (address - ir_own_low >= NUMBER(ir_slice))
        ir_stray(address, size, writes);
    return 1;
}

/* A pair of words that is open for writing: of an object, or private memory. */
struct open {
    word address, object, index;
};

#define PRIVATE (~0u)

IR_CALL word open_get(struct open open, word next)
{
    return open.object == PRIVATE ? ((word *)open.address)[next] : call_get(open.object, open.index + next);
}

IR_CALL void open_put(struct open open, word next, word value)
{
    if (open.object == PRIVATE)
        ((word *)open.address)[next] = value;
    else
        call_put(open.object, open.index + next, value);
}

IR_CALL void close(struct open open)
{
    if (open.object != PRIVATE)
        call_leave(open.object);
}

/* Opens the pair of a word, gets and puts its words, and closes it: together one entry. A word that is opened for reading isn't put. */
IR_CALL struct open ir_open(const volatile void *pointer)
{
    word address = (word)pointer;
    ir_settle();
    ir_drain();
    if (is_private(address, 4, 1))
        return (struct open){address, PRIVATE, 0};
    word object = object_of(address), offset = offset_of(address), none = 0;
    IR_ENTER(ir_gate_write, object, address, offset, none);
    end_if_over(object);
    return (struct open){address, object, index_at(address, offset)};
}

IR_CALL struct open ir_open_read(const volatile void *pointer)
{
    word address = (word)pointer;
    ir_settle();
    ir_drain();
    if (is_private(address, 4, 0))
        return (struct open){address, PRIVATE, 0};
    word object = object_of(address), offset = offset_of(address), none = 0;
    IR_ENTER(ir_gate_read, object, address, offset, none);
    end_if_over(object);
    return (struct open){address, object, index_at(address, offset)};
}

/* Reads or writes a word, in one entry. */
word ir_read(const volatile void *pointer);
void ir_write(volatile void *pointer, word value);

/* Writes a pair of words, in one entry. */
void ir_write_pair(volatile void *pointer, word first, word second);

/* Waits a little before this thread looks again. */
void ir_pause(void);

/* time.c: what a timed wait that has to give up answers. */
struct timespec;
int ir_timed_out(const struct timespec *time);

/* text.c: copies bytes of the shared range into the own copy up to the first that is 0, of at most this many, and says how many are before it. */
word ir_fetch_text(const char *text, word most);

/* ---- process.c */

/* Says to all threads that the process is over, with this code. */
void ir_over(word code);

/* Prints a line that says what is wrong, and ends the process by a fault. */
__attribute__((noreturn)) void ir_wrong(const char *what);

/* ---- thread.c */

/* Ends this thread, which returned this. */
__attribute__((noreturn)) void ir_returned(word result);

/* Ends the process, after thread 0 returned or some thread called exit. */
__attribute__((noreturn)) void ir_exit(word code);

/* key.c: calls the destructors of this thread's values, if there are keys. */
void ir_destroy_values(void) __attribute__((weak));

#endif
