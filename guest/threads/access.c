/* What the compiler calls before each access that it doesn't know to be of one thread only. */
#include "layer.h"

OWN struct ir_written ir_written;
OWN struct ir_seen ir_seen;

/* What is in an own copy from the announcement of a write until the write. */
#define UNWRITTEN 0xa7c35a7du

/* ---- What the code that follows does */

/* The opcodes of instructions. */
enum { LOAD = 0x03, STORE = 0x23, BRANCH = 0x63, JUMP_REGISTER = 0x67, JUMP = 0x6f, OPCODE = 0x7f };

enum { SP = 2, S0 = 8 };

IR_CALL word opcode_at(word place)
{
    return *(word *)place & OPCODE;
}

/* Whether a load or store is of a word in the function's frame: by sp, or by s0 if that is the frame's. */
IR_CALL int is_in_frame(word instruction)
{
    word base = instruction >> 15 & 31;
    return base == SP || (NUMBER(ir_frames) && base == S0);
}

IR_CALL int opcode_is_store(word instruction)
{
    return (instruction & OPCODE) == STORE;
}

/* How many bytes a store stores. */
IR_CALL word width_of(word store)
{
    return 1u << (store >> 12 & 3);
}

static int has_store(word from, word to)
{
    for (; from < to; from += 4)
        if (opcode_at(from) == STORE && !is_in_frame(*(word *)from))
            return 1;
    return 0;
}

/* The bytes that a write was announced of, and the stack pointer of the function that writes. */
struct target {
    word address, size, stack;
};

/* How far from its base a load or store is. */
IR_CALL word offset_in(word instruction)
{
    word upper = (word)((int)instruction >> 25) << 5;
    return opcode_is_store(instruction) ? upper | (instruction >> 7 & 31) : (word)((int)instruction >> 20);
}

/* Whether a load or store may be of the target. One in the frame is if the target is there, too: the others save and restore registers. */
static int may_be_of(word instruction, const struct target *target)
{
    word base = instruction >> 15 & 31, at = target->stack + offset_in(instruction);
    if (base == SP)
        return at - target->address < target->size;
    return !is_in_frame(instruction) || target->address - ir_own_low < NUMBER(ir_slice);
}

/* Whether the write may be of a bit-field, if the program has some: it is announced as a write of the whole number that the bit-field is in,
   but the code that follows stores less, or loads before it stores. */
static int may_be_bit_field(word after, const struct target *target)
{
    int loads = 0;
    for (word at = after; at - after <= 128; at += 4) {
        word instruction = *(word *)at, kind = instruction & OPCODE;
        if (kind == LOAD && may_be_of(instruction, target))
            loads = 1;
        if (kind == STORE && may_be_of(instruction, target))
            return loads || width_of(instruction) < target->size;
        if (kind == BRANCH || kind == JUMP_REGISTER || kind == JUMP)
            return 0;
    }
    return 0;
}

/* ---- Writes */

/* How many bytes of an own copy are marked: a word, or two bytes or one if there is no whole word at the address. */
IR_CALL word marked(word address, word size)
{
    return size >= 4 && !(address & 3) ? 4 : size >= 2 && !(address & 1) ? 2 : 1;
}

/* Marks the own copy as not written yet. */
IR_CALL void mark_unwritten(word address, word size)
{
    word bytes = marked(address, size);
    if (bytes == 4)
        *(volatile word *)address = UNWRITTEN;
    else if (bytes == 2)
        *(volatile unsigned short *)address = (unsigned short)UNWRITTEN;
    else
        *(volatile unsigned char *)address = (unsigned char)UNWRITTEN;
}

/* Whether the write that was announced hasn't happened: a struct is being copied, and its parts are read now. A small number may be the mark
   by chance, so the code is looked at too. */
static int is_unwritten(word now)
{
    word address = ir_written.address, bytes = marked(address, ir_written.size);
    if (!ir_written.after)
        return 0;
    if (bytes == 4)
        return *(word *)address == UNWRITTEN;
    if (bytes == 2 ? *(unsigned short *)address != (unsigned short)UNWRITTEN : *(unsigned char *)address != (unsigned char)UNWRITTEN)
        return 0;
    return now - ir_written.after < 128 && !has_store(ir_written.after, now);
}

int ir_is_announced(word address, word size)
{
    return ir_written.size && ir_written.address == address && ir_written.size == size && is_unwritten(ir_written.after);
}

#ifndef IR_TSO
/* Puts a word, in one entry, and clears the own copy. It needs no frame. */
IR_CALL void put_word(word at)
{
    word object = object_of(at), offset = offset_of(at), none = 0;
    IR_ENTER_LEAF(ir_gate_write, object, at, offset, none);
    end_if_over(object);
    call_put(object, index_at(at, offset), *(word *)at);
    call_leave(object);
    if (may_clear(at))
        *(volatile word *)at = 0;
}

static __attribute__((noinline)) void put_parts(word address, word size)
{
    ir_put(address, size);
    ir_clear(address, size);
}
#endif

/* Puts what was written. */
static __attribute__((noinline)) void put_written(void)
{
    word address = ir_written.address, size = ir_written.size;
    ir_written.address = ir_written.size = ir_written.after = 0;
#ifdef IR_TSO
    ir_buffer(address, size);
    ir_clear(address, size);
#else
    if (size == 4 && !(address & 3))
        put_word(address);
    else
        put_parts(address, size);
#endif
}

/* ---- Reads */

static __attribute__((noinline)) void clear_more(void)
{
    ir_clear(ir_seen.address, 4 + ir_seen.more);
    ir_seen.address = ir_seen.more = 0;
}

/* Clears the own copy of a word that was read. */
IR_CALL void clear_seen(void)
{
    if (!ir_seen.address)
        return;
    *(volatile word *)ir_seen.address = 0;
    ir_seen.address = 0;
}

/* Notes what was read. */
IR_CALL void note_seen(word address, word size)
{
    word at = address & ~3u;
    if (!may_clear(at))
        return;
    ir_seen.address = at;
    if ((address & 3) + size > 4)
        ir_seen.more = address + size - at - 4;
}

/* Fetches a number of 1, 2 or 4 bytes, in one entry. It needs no frame. */
IR_CALL void fetch_number(word address, word size)
{
    word object = object_of(address), offset = offset_of(address), none = 0;
    IR_ENTER_LEAF(ir_gate_read, object, address, offset, none);
    end_if_over(object);
    word value = call_get(object, index_at(address, offset));
    call_leave(object);
    if (size == 4)
        *(word *)address = value;
    else if (size == 2)
        *(unsigned short *)address = (unsigned short)(value >> (address & 3) * 8);
    else
        *(unsigned char *)address = (unsigned char)(value >> (address & 3) * 8);
    note_seen(address & ~3u, 4);
}

void ir_settle_now(void)
{
    if (ir_written.size)
        put_written();
    if (ir_seen.more)
        clear_more();
    clear_seen();
    ir_drain_some();
}

/* Before an access to memory of this thread only, what was written is put: the thread may go on with such accesses forever. */
IR_CALL void put_before_read(word now)
{
    if (ir_written.size && !is_unwritten(now))
        put_written();
}

/* ---- Announcements */

/* Whether an access is of a number that is in one word. */
IR_CALL int is_number(word address, word size)
{
    return (size == 1 || size == 2 || size == 4) && !(address & (size - 1));
}

/* A read after a write that isn't put yet, or one of more than a word. */
static __attribute__((noinline)) void read_slowly(word address, word size, word now)
{
    put_before_read(now);
    if (ir_seen.more)
        clear_more();
    clear_seen();
    ir_drain_some();
#ifndef IR_TSO
    if (is_number(address, size)) {
        fetch_number(address, size);
        return;
    }
#endif
    ir_fetch(address, size);
    note_seen(address, size);
}

IR_CALL void note_written(word address, word size, word after)
{
    mark_unwritten(address, size);
    ir_written.address = address;
    ir_written.size = size;
    ir_written.after = after;
}

/* A write after a read of more than a word, or in a program with bit-fields. */
static __attribute__((noinline)) void write_slowly(word address, word size, word after, word stack)
{
    struct target target = {address, size, stack};
    if (ir_seen.more)
        clear_more();
    clear_seen();
    ir_drain_some();
    note_written(address, size, after);
    if (NUMBER(ir_bits) && may_be_bit_field(after, &target)) {
        ir_fetch(address, size);
        ir_written.after = 0;
    }
}

/* Whether nothing of an earlier access is left to do but to clear a word. */
IR_CALL int is_quick(void)
{
#ifdef IR_TSO
    return 0;
#else
    return __builtin_expect(!(ir_written.size | ir_seen.more), 1);
#endif
}

IR_CALL void announce_read(word address, word size, word now)
{
    if (is_private(address, size, 0)) {
        put_before_read(now);
        return;
    }
    if (is_quick() && is_number(address, size)) {
        clear_seen();
        fetch_number(address, size);
    } else
        read_slowly(address, size, now);
}

IR_CALL void announce_write(word address, word size, word after, word stack)
{
    if (ir_written.size)
        put_written();
    if (is_private(address, size, 1))
        return;
    if (is_quick() && !NUMBER(ir_bits)) {
        clear_seen();
        note_written(address, size, after);
    } else
        write_slowly(address, size, after, stack);
}

/* ---- The calls */

#define AFTER (word) __builtin_return_address(0)
#define STACK (word) __builtin_dwarf_cfa()
#define ACCESS(kind, bytes) \
    void __tsan_##kind##read##bytes(void *pointer) { announce_read((word)pointer, bytes, AFTER); } \
    void __tsan_##kind##write##bytes(void *pointer) { announce_write((word)pointer, bytes, AFTER, STACK); }
ACCESS(, 1)
ACCESS(, 2)
ACCESS(, 4)

/* The rarer ones. */
static __attribute__((noinline)) void read_any(word address, word size, word now)
{
    if (is_private(address, size, 0))
        put_before_read(now);
    else
        read_slowly(address, size, now);
}

static __attribute__((noinline)) void write_any(word address, word size, word after, word stack)
{
    if (ir_written.size)
        put_written();
    if (!is_private(address, size, 1))
        write_slowly(address, size, after, stack);
}

#define RARE(kind, bytes) \
    void __tsan_##kind##read##bytes(void *pointer) { read_any((word)pointer, bytes, AFTER); } \
    void __tsan_##kind##write##bytes(void *pointer) { write_any((word)pointer, bytes, AFTER, STACK); }
RARE(, 8)
RARE(, 16)
RARE(unaligned_, 2)
RARE(unaligned_, 4)
RARE(unaligned_, 8)
RARE(unaligned_, 16)

void __tsan_read_range(void *pointer, word size) { read_any((word)pointer, size, AFTER); }
void __tsan_write_range(void *pointer, word size) { write_any((word)pointer, size, AFTER, STACK); }
void __tsan_func_entry(void *pointer) { (void)pointer; }
void __tsan_func_exit(void) { }
void __tsan_init(void) { }
