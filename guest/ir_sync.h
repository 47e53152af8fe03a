/* Atomic words, locks, condition variables, semaphores and barriers for guests on ir.h. All of them are words of objects, which
   IR_OBJECTS gives their first values, and all are sequentially consistent.

   Each function enters the object that it is given, so it can lead to the ends of ir_enter_write and ir_put: end 9, there is no such
   object or word; end 10, the thread holds an object whose number isn't below; end 14, the thread has 1,048,576 events. More ends are
   named below. Locks aren't held as objects are, so they can be taken in any order.

   A thread that waits looks again and again, and pauses between two looks. On threads it may spend its budget so, end 13. A wait that
   no thread can end is a `hang` of `ir explore`.

   A thread that ends keeps its locks, and then others may wait for ever, so that no run ends. So an ir_assert should come after ir_unlock. */
#ifndef IR_SYNC_H
#define IR_SYNC_H

#include "ir.h"

/* How many turns ir_pause takes between two looks. */
#ifndef IR_TURNS
#define IR_TURNS 20
#endif

/* A function that is called, and isn't there if it is never called: gcc warns that it is inline and noinline. */
#define IR_SYNC_ static inline __attribute__((noinline))
#pragma GCC diagnostic push
#pragma GCC diagnostic ignored "-Wattributes"

/* ---- Atomic words. Each is a single entry, and a macro and a function, as the calls of ir.h are. */

/* Gets a word within an entry, into a3, and sets a0 to the object again; and leaves, with this word as the answer. */
#define IR_FOUND_ IR_SET_(a1, two) IR_ECALL_(10) "mv a3, a0\n\t" IR_SET_(a0, one)
#define IR_LEFT_ IR_ECALL_(9) "mv %[answer], a3"

/* Gives a word. */
#define ir_load(object, index) \
    IR_ASK_(IR_SET_(a0, one) IR_ECALL_(7) IR_FOUND_ IR_LEFT_, IR_IN_(one, object), IR_IN_(two, index))
IR_CALL_ ir_word (ir_load)(ir_word object, ir_word index) { return ir_load(object, index); }

/* Puts a word. */
#define ir_store(object, index, value) \
    IR_TELL_(IR_SET_(a0, one) IR_ECALL_(8) IR_SET_(a1, two) IR_SET_(a2, three) IR_ECALL_(11) IR_ECALL_(9), IR_IN_(one, object), \
             IR_IN_(two, index), IR_IN_(three, value))
IR_CALL_ void (ir_store)(ir_word object, ir_word index, ir_word value) { ir_store(object, index, value); }

/* Puts a word, and gives the word that was there. */
#define ir_swap(object, index, value) \
    IR_ASK_(IR_SET_(a0, one) IR_ECALL_(8) IR_FOUND_ IR_SET_(a2, three) IR_ECALL_(11) IR_LEFT_, IR_IN_(one, object), IR_IN_(two, index), \
            IR_IN_(three, value))
IR_CALL_ ir_word (ir_swap)(ir_word object, ir_word index, ir_word value) { return ir_swap(object, index, value); }

/* Adds to a word, and gives the word that was there. */
#define ir_add(object, index, value) \
    IR_ASK_(IR_SET_(a0, one) IR_ECALL_(8) IR_FOUND_ "add%i[three] a2, a3, %[three]\n\t" IR_ECALL_(11) IR_LEFT_, \
            IR_IN_(one, object), IR_IN_(two, index), IR_IN_(three, value))
IR_CALL_ ir_word (ir_add)(ir_word object, ir_word index, ir_word value) { return ir_add(object, index, value); }

/* Puts a word if the word that is there is `from`, and gives the word that was there. */
#define ir_cas(object, index, from, to) \
    IR_ASK_(IR_SET_(a0, one) IR_ECALL_(8) IR_FOUND_ "bne a3, %[three], 1f\n\t" IR_SET_(a2, four) IR_ECALL_(11) "1:\n\t" IR_LEFT_, \
            IR_IN_(one, object), IR_IN_(two, index), [three] "r"((ir_word)(1 ? (from) : 1)), IR_IN_(four, to))
IR_CALL_ ir_word (ir_cas)(ir_word object, ir_word index, ir_word from, ir_word to) { return ir_cas(object, index, from, to); }

/* ---- Locks. A lock is a word: 0 while it is free, otherwise the number of the thread that has it, plus 1. It guards what you say that
   it guards, also words of other objects. */

/* Takes a lock if it is free. Gives 1 if the thread now has it, otherwise 0. */
IR_SYNC_ int ir_try_lock(ir_word object, ir_word lock)
{
    return ir_cas(object, lock, 0, ir_self() + 1) == 0;
}

/* Takes a lock, and waits until it is free. End 2: the thread has it already. */
IR_SYNC_ void ir_lock(ir_word object, ir_word lock)
{
    ir_word mine = ir_self() + 1, owner;
    while ((owner = ir_cas(object, lock, 0, mine)) != 0) {
        ir_assert(owner != mine);
        do
            ir_pause(IR_TURNS);
        while (ir_load(object, lock) != 0);
    }
}

/* Frees a lock. End 2: the thread doesn't have it. */
IR_SYNC_ void ir_unlock(ir_word object, ir_word lock)
{
    ir_word mine = ir_self() + 1, owner = ir_cas(object, lock, mine, 0);
    ir_assert(owner == mine);
}

/* ---- Condition variables. A condition variable is a word of the same object as its lock: bit T says that thread T waits. No wake-up is
   lost, because a thread frees the lock and begins to wait in a single entry. */

/* Frees the lock, waits until it is woken, and takes the lock. By then another thread may have changed what it waited for, so call it in
   a loop: while (!ready) ir_wait(..); End 2: the thread doesn't have the lock. */
IR_SYNC_ void ir_wait(ir_word object, ir_word lock, ir_word condition)
{
    ir_word self = ir_self();
    ir_enter_write(object);
    ir_assert(ir_get(object, lock) == self + 1);
    ir_put(object, condition, ir_get(object, condition) | 1u << self);
    ir_put(object, lock, 0);
    ir_leave(object);
    do
        ir_pause(IR_TURNS);
    while (ir_load(object, condition) >> self & 1);
    ir_lock(object, lock);
}

/* Wakes a thread that waits, if there is one: the one with the lowest number. */
IR_SYNC_ void ir_signal(ir_word object, ir_word condition)
{
    ir_enter_write(object);
    ir_word waits = ir_get(object, condition);
    ir_put(object, condition, waits & (waits - 1));
    ir_leave(object);
}

/* Wakes any thread that waits, if there is one, as ir_choose chooses: `ir explore --profile 2` tries each. */
IR_SYNC_ void ir_signal_any(ir_word object, ir_word condition)
{
    ir_enter_write(object);
    ir_word waits = ir_get(object, condition), rest = waits, count = 0;
    for (; rest != 0; rest &= rest - 1)
        count++;
    rest = waits;
    for (ir_word skipped = count > 1 ? ir_choose(count) : 0; skipped > 0; skipped--)
        rest &= rest - 1;
    ir_put(object, condition, waits & ~(rest & -rest));
    ir_leave(object);
}

/* Wakes all threads that wait. */
IR_SYNC_ void ir_broadcast(ir_word object, ir_word condition)
{
    ir_store(object, condition, 0);
}

/* ---- Semaphores. A semaphore is a word: how many threads it lets through. */

/* Takes 1 from a semaphore, and waits until it isn't 0. */
IR_SYNC_ void ir_acquire(ir_word object, ir_word semaphore)
{
    for (;;) {
        ir_enter_write(object);
        ir_word left = ir_get(object, semaphore);
        if (left > 0)
            ir_put(object, semaphore, left - 1);
        ir_leave(object);
        if (left > 0)
            return;
        do
            ir_pause(IR_TURNS);
        while (ir_load(object, semaphore) == 0);
    }
}

/* Adds 1 to a semaphore. */
IR_SYNC_ void ir_release(ir_word object, ir_word semaphore)
{
    ir_add(object, semaphore, 1);
}

/* ---- Barriers. A barrier is a word, 0 at first: how many threads have come, and above bit 16 how often they were all there. */

/* Waits until this number of threads have come, at most 16. Gives 1 to the last of them, and 0 to the others. */
IR_SYNC_ int ir_barrier(ir_word object, ir_word barrier, ir_word threads)
{
    ir_enter_write(object);
    ir_word word = ir_get(object, barrier) + 1, round = word >> 16;
    int is_last = (word & 0xffff) == threads;
    ir_put(object, barrier, is_last ? (round + 1) << 16 : word);
    ir_leave(object);
    if (!is_last)
        do
            ir_pause(IR_TURNS);
        while (ir_load(object, barrier) >> 16 == round);
    return is_last;
}

#pragma GCC diagnostic pop
#endif
