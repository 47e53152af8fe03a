/* Guests of `ir` in C: their threads, their objects and their calls.

     riscv64-unknown-elf-gcc bank.c @guest/ir.opts -o bank.elf
     ir elf bank.elf bank.img

   Threads share objects only. A thread enters an object, gets and puts its words, and leaves it. It enters objects by rising number.
   What they share is sequentially consistent. A variable is each thread's own, a static one too: IR_OWN says that this is meant.
   ir_sync.h has atomic words, locks and condition variables.

   A misuse ends the thread. Each macro and call below has the numbers of the ends that it can lead to. What they mean is in
   docs/reference/calls-and-ends.md. The guide is docs/guide/c-guests.md. */
#ifndef IR_H
#define IR_H

#include "ir_checks.h"

#if !defined __riscv_xlen || __riscv_xlen != 32 || defined __riscv_32e || defined __riscv_compressed || defined __riscv_atomic \
    || defined __riscv_flen
#error "guests are for -march=rv32im -mabi=ilp32: compile by riscv64-unknown-elf-gcc FILE.c @guest/ir.opts -o FILE.elf"
#endif

/* Write `#define IR_LARGE 1` above `#include "ir.h"` for the large form: at most 16 threads, and 64 objects of 16 words. Without it
   there are at most 8 threads, and 16 objects of 8 words. All files of a guest have to agree: with -DIR_LARGE=1 on the command line
   they do. A guest of more than 8 threads or 16 objects is recorded with --profile 2. */
#ifndef IR_LARGE
#define IR_LARGE 0
#endif
#if -IR_LARGE - 1 != -1 && -IR_LARGE - 1 != -2 /* it is 1 if IR_LARGE is defined as nothing */
#error "IR_LARGE is 0 or 1: write #define IR_LARGE 1"
#endif

/* Which form this file is for. The linker compares these marks: it refuses files that disagree. They are no part of the image.
   ir_mem.c is for both forms, so it has none. */
#ifndef IR_BOTH_FORMS_
#if IR_LARGE
__asm__(".pushsection .ir.large, \"\"\n\t.byte 1\n\t.popsection");
#else
__asm__(".pushsection .ir.small, \"\"\n\t.byte 1\n\t.popsection");
#endif
#endif

/* The words of an object. */
#define IR_WORDS (IR_LARGE ? 16 : 8)

/* A word of an object. */
typedef unsigned int ir_word;

/* IR_OWN static int count; defines a variable that keeps its value from call to call, and of which each thread has its own. The linker
   refuses a variable that isn't marked so and that is neither constant nor on the stack, since a guest's threads can't share it. With
   -fno-data-sections it takes all of them. */
#define IR_OWN __attribute__((section(".ir.own")))

/* What IR_THREAD defines. `ir_entry name;` declares a thread of another file. */
typedef struct made_by_IR_THREAD *ir_entry(void);

/* ---- Threads and objects */

/* IR_THREAD(name) { ..; return code; } is what a thread does. It takes no argument: ir_self() gives the number of the thread that runs it.
   What it returns is the code of the thread's end, end 1.
   Its stack is below all variables. It has 16,384 bytes, or N by -Wl,--defsym=ir_stack=N. If it grows too far, a store ends the thread,
   end 7.
   In a listing `name` is five instructions that begin and end the thread, and `name_body` is what you wrote. */
#define IR_THREAD(name) \
    static ir_word name##_body(void) __attribute__((used)); \
    ir_entry name __attribute__((naked)); \
    struct made_by_IR_THREAD *name(void) { __asm__(IR_OUTERMOST_ "la sp, ir_stack_top\n\tcall " #name "_body\n\tli a7, 1\n\tecall"); } \
    static ir_word name##_body(void)

/* No function calls a thread's first one: this tells a debugger, and adds no instruction. */
#ifdef __GCC_HAVE_DWARF2_CFI_ASM
#define IR_OUTERMOST_ ".cfi_undefined ra\n\t"
#else
#define IR_OUTERMOST_ ""
#endif

/* IR_THREADS(name, ..); says which threads there are, thread 0 first. A name may be there more than once. A guest has one IR_THREADS. */
#define IR_THREADS(...) \
    const ir_word ir_form_ IR_TABLE_(".ir.form") = 1 + IR_LARGE; \
    ir_entry *const ir_threads_[] IR_TABLE_(".ir.threads") = { __VA_ARGS__ }; \
    _Static_assert(sizeof ir_threads_ >= 4 && sizeof ir_threads_ <= (IR_LARGE ? 64 : 32), \
                   "IR_THREADS takes 1 to 8 threads, or 1 to 16 with IR_LARGE")

/* IR_OBJECTS({1, 2}, {3}); says how many objects there are, and gives the first words of object 0, of object 1 and so on. [N] = {1, 2}
   gives those of object N. Words and objects that are left out are 0. A guest has one IR_OBJECTS, or none if it has no objects. */
#define IR_OBJECTS(...) \
    const ir_word ir_objects_[][IR_WORDS] IR_TABLE_(".ir.objects") = { __VA_ARGS__ }; \
    _Static_assert(sizeof ir_objects_ <= (IR_LARGE ? 64 * 64 : 16 * 32), "IR_OBJECTS takes at most 16 objects, or 64 with IR_LARGE")

#define IR_TABLE_(part) __attribute__((section(part), used, aligned(4)))

/* IR_NAME(object, word, "name"); says what guest/ir-where and guest/ir-lines call a word of an object, or the object itself with
   IR_ITSELF as the word. A name has at most 31 bytes, and no blanks. Names are no part of the image. */
#define IR_ITSELF 0xffffffffu
#define IR_NAME(object, word, name) IR_NAME_(object, word, name, __COUNTER__)
#define IR_NAME_(object, word, name, number) IR_NAMED_(object, word, name, number)
#define IR_NAMED_(object, word, name, number) \
    static const struct { ir_word its_object, its_word; char text[32]; } ir_name_##number IR_TABLE_(".ir.names") = { object, word, name }; \
    _Static_assert(sizeof(name) <= 32, "IR_NAME takes a name of at most 31 bytes")

/* ---- How a call is made: its number in a7, its arguments in a0 to a2, its answer in a0. "memory" keeps what you wrote between two calls
   between them. Calls are inlined at every level, but ir_pause, ir_puts and ir_choose are functions of ir_mem.c.

   A call is a macro and a function. By the macro its instructions belong to the line of yours that makes it, so a debugger stops there,
   once. The function is what a pointer to it points to.

   The macros have no variables, which a debugger would list among yours. So an answer is in register tp, which nothing else uses. Clang
   can't do that, and takes a variable. */

#define IR_CALL_ static inline

#ifdef __clang__
#define IR_ANSWER_ ir_word ir_answer_
#else
#define IR_ANSWER_ (void)0
__extension__ register ir_word ir_answer_ __asm__("tp");
#endif

/* An operand by its name, a constant or a register. A pointer has a warning, as an argument has. */
#define IR_IN_(name, value) [name] "rI"((ir_word)(1 ? (value) : 1))

/* An instruction that sets a register to an operand, and those that make a call. */
#define IR_SET_(register_, name) "add%i[" #name "] " #register_ ", zero, %[" #name "]\n\t"
#define IR_ECALL_(number) "li a7, " #number "\n\tecall\n\t"

/* Instructions that have an answer, and those that have none; then their operands. The answer comes last, since tp may be an operand. */
#define IR_ANSWERED_ "mv %[answer], a0"
#define IR_CHANGED_ "a0", "a1", "a2", "a3", "a7", "memory"
#define IR_ASK_(code, ...) __extension__ \
    ({ IR_ANSWER_; __asm__ volatile(code : [answer] "=r"(ir_answer_) : __VA_ARGS__ : IR_CHANGED_); ir_answer_; })
#define IR_TELL_(code, ...) __extension__ ({ __asm__ volatile(code : : __VA_ARGS__ : IR_CHANGED_); })

/* A call about an object. */
#define IR_OBJECT_(number, object) IR_TELL_(IR_SET_(a0, one) IR_ECALL_(number), IR_IN_(one, object))

/* ---- Calls about an object. Each can lead to end 9: there is no such object. */

/* Enters an object for reading. Waits while another thread holds it for writing.
   End 10: its number isn't above those of all objects that the thread holds. End 14: the thread has 1,048,576 events. */
#define ir_enter_read(object) IR_OBJECT_(7, object)
IR_CALL_ void (ir_enter_read)(ir_word object) { ir_enter_read(object); }

/* Enters an object for writing. Waits while another thread holds it. Ends 10 and 14, as above. */
#define ir_enter_write(object) IR_OBJECT_(8, object)
IR_CALL_ void (ir_enter_write)(ir_word object) { ir_enter_write(object); }

/* Tries to enter an object for writing, and doesn't wait. Gives 1 if the thread now holds it, or 0 if nothing changed. It may give 0
   even if no thread holds the object. End 8: the recording is without --profile 2. Ends 10 and 14, as above. */
#define ir_try_write(object) ((int)IR_ASK_(IR_SET_(a0, one) IR_ECALL_(13) IR_ANSWERED_, IR_IN_(one, object)) != 0)
IR_CALL_ __attribute__((warn_unused_result)) int (ir_try_write)(ir_word object) { return ir_try_write(object); }

/* Leaves an object. End 11: the thread doesn't hold it. */
#define ir_leave(object) IR_OBJECT_(9, object)
IR_CALL_ void (ir_leave)(ir_word object) { ir_leave(object); }

/* Gives a word of an object that the thread holds. The index is below IR_WORDS, or it is end 9. End 11: the thread doesn't hold it. */
#define ir_get(object, index) \
    IR_ASK_(IR_SET_(a0, one) IR_SET_(a1, two) IR_ECALL_(10) IR_ANSWERED_, IR_IN_(one, object), IR_IN_(two, index))
IR_CALL_ ir_word (ir_get)(ir_word object, ir_word index) { return ir_get(object, index); }

/* Puts a word into an object that the thread holds for writing. The index is below IR_WORDS, or it is end 9. End 11: the thread doesn't
   hold it, or holds it for reading. */
#define ir_put(object, index, value) \
    IR_TELL_(IR_SET_(a0, one) IR_SET_(a1, two) IR_SET_(a2, three) IR_ECALL_(11), IR_IN_(one, object), IR_IN_(two, index), \
             IR_IN_(three, value))
IR_CALL_ void (ir_put)(ir_word object, ir_word index, ir_word value) { ir_put(object, index, value); }

/* ---- Calls about the thread itself */

/* Gives the thread's number, from 0 on. */
#define ir_self() IR_ASK_(IR_ECALL_(12) IR_ANSWERED_, )
IR_CALL_ ir_word (ir_self)(void) { return ir_self(); }

/* Ends the thread with this code, end 1, from any of its functions. It releases what the thread holds. */
#define ir_end(code) __extension__ ({ IR_TELL_(IR_SET_(a0, one) IR_ECALL_(1), IR_IN_(one, code)); __builtin_unreachable(); })
IR_CALL_ __attribute__((noreturn)) void (ir_end)(ir_word code) { ir_end(code); }

/* Asserts a condition. If it doesn't hold, the thread ends here, end 2, and releases what it holds. `--until fault` finds that. */
#define ir_assert(condition) \
    ((condition) ? (void)0 : __extension__ ({ __asm__ volatile("ebreak" : : "i"(__LINE__) : "memory"); __builtin_unreachable(); }))

/* Takes this number of turns of an empty loop. A thread that enters an object again and again, until a word of it changes, should pause
   between the entries: it logs fewer events. */
void ir_pause(ir_word turns);

/* Gives any number below `limit`, which is at least 1. `ir explore` shows what each of them leads to. On threads, and in a hunt, it is
   nearly always 0. It is for what the guest can't know: whether a malloc fails, a wait times out, which byte comes in.
   It tries to enter an object that no other call enters, limit - 1 times at most; its number is how many tries were refused. A guest
   that calls ir_choose has this object behind its own, by itself. So it has room for one object less, and is recorded and explored
   with --profile 2, or it is end 8. End 14, as above. */
#define ir_choose(limit) ir_chosen_((ir_word)ir_choice_ + IR_CHOICE_, limit)

/* The object of ir_choose: its words, once in each file that calls it, of which the linker takes those of one; and then its number. */
#define IR_CHOICE_ __extension__ \
    ({ __asm__(".pushsection .ir.objects.last, \"aG\", %%progbits, ir_choice_words_, comdat\n\t.ifndef ir_choice_words_\n\t" \
               ".weak ir_choice_words_\nir_choice_words_:\n\t.zero %c0\n\t.endif\n\t.popsection" : : "i"(4 * IR_WORDS)); 0u; })
extern const char ir_choice_[];
ir_word ir_chosen_(ir_word object, ir_word limit);

/* ---- Printing. `ir record --output PREFIX` writes what thread T prints to the file PREFIX.T. End 12: it would be over 65,536 bytes. */

/* Prints the low byte of its argument. */
#define ir_putc(byte) IR_TELL_(IR_SET_(a0, one) IR_ECALL_(2), IR_IN_(one, byte))
IR_CALL_ void (ir_putc)(int byte) { ir_putc(byte); }

/* Prints a number in decimal, with its sign, and a line feed. */
#define ir_putn(number) IR_TELL_(IR_SET_(a0, one) IR_ECALL_(3), IR_IN_(one, number))
IR_CALL_ void (ir_putn)(int number) { ir_putn(number); }

/* Prints a text, and no line feed of its own. */
void ir_puts(const char *text);

/* ---- Calls to the world. Their answers are logged, so a replay has them too. End 14: the thread has 1,048,576 events. */

/* Gives the milliseconds since the recording began, or 0, 1, 2 and so on if the recording has an order. */
#define ir_clock() IR_ASK_(IR_ECALL_(4) IR_ANSWERED_, )
IR_CALL_ ir_word (ir_clock)(void) { return ir_clock(); }

/* Gives a random word. `ir record --random S` says where the words start. */
#define ir_random() IR_ASK_(IR_ECALL_(5) IR_ANSWERED_, )
IR_CALL_ ir_word (ir_random)(void) { return ir_random(); }

/* Gives the next byte of `ir record --input FILE`, or -1 at its end. Each thread reads FILE from the start. */
#define ir_input() ((int)IR_ASK_(IR_ECALL_(6) IR_ANSWERED_, ))
IR_CALL_ int (ir_input)(void) { return ir_input(); }

/* ---- More functions of guest/ir_mem.c. There is no other library. */

void *memcpy(void *restrict to, const void *restrict from, __SIZE_TYPE__ size);
void *memmove(void *to, const void *from, __SIZE_TYPE__ size);
void *memset(void *to, int byte, __SIZE_TYPE__ size);
int memcmp(const void *a, const void *b, __SIZE_TYPE__ size);

#endif
