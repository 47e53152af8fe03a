/* The calls of `ir` that the layer makes: their numbers are in docs/reference/calls-and-ends.md. */
#ifndef IR_CALLS_H
#define IR_CALLS_H

typedef unsigned int word;
typedef unsigned long long two_words;

#define IR_CALL static inline __attribute__((always_inline))
#define IR_REGISTER(name, value) register word name##_ __asm__(#name) = (value)
#define IR_ECALL(...) __asm__ volatile("ecall" : __VA_ARGS__ : "memory")

/* Ends this thread with a code. */
IR_CALL __attribute__((noreturn)) void call_end(word code)
{
    IR_REGISTER(a7, 1);
    IR_REGISTER(a0, code);
    IR_ECALL(: "r"(a7_), "r"(a0_));
    __builtin_unreachable();
}

/* Prints a byte. */
IR_CALL void call_print(word byte)
{
    IR_REGISTER(a7, 2);
    IR_REGISTER(a0, byte);
    IR_ECALL(: "r"(a7_), "r"(a0_));
}

/* The answer of a call without an argument: 4 is the time, 5 a random word. */
IR_CALL word call_world(word number)
{
    IR_REGISTER(a7, number);
    register word a0_ __asm__("a0");
    IR_ECALL("=r"(a0_) : "r"(a7_));
    return a0_;
}

/* Leaves an object. */
IR_CALL void call_leave(word object)
{
    IR_REGISTER(a7, 9);
    IR_REGISTER(a0, object);
    IR_ECALL(: "r"(a7_), "r"(a0_));
}

/* A word of an object that this thread holds. */
IR_CALL word call_get(word object, word index)
{
    IR_REGISTER(a7, 10);
    IR_REGISTER(a0, object);
    IR_REGISTER(a1, index);
    IR_ECALL("+r"(a0_) : "r"(a7_), "r"(a1_));
    return a0_;
}

/* Puts a word into an object that this thread holds for writing. */
IR_CALL void call_put(word object, word index, word value)
{
    IR_REGISTER(a7, 11);
    IR_REGISTER(a0, object);
    IR_REGISTER(a1, index);
    IR_REGISTER(a2, value);
    IR_ECALL(: "r"(a7_), "r"(a0_), "r"(a1_), "r"(a2_));
}

#endif
