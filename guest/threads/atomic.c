/* What the compiler calls for atomic operations: each is one entry. */
#include "layer.h"

enum operation { EXCHANGE, ADD, SUB, AND, OR, XOR, NAND };

#ifdef IR_TSO
enum { SEQ_CST = 5 };
#endif

IR_CALL word applied(enum operation operation, word old, word value)
{
    switch (operation) {
    case EXCHANGE: return value;
    case ADD: return old + value;
    case SUB: return old - value;
    case AND: return old & value;
    case OR: return old | value;
    case XOR: return old ^ value;
    default: return ~(old & value);
    }
}

/* The same of two words: those that carry are sums and differences. */
static two_words applied_to_two(enum operation operation, two_words old, two_words value)
{
    if (operation == ADD)
        return old + value;
    if (operation == SUB)
        return old - value;
    return applied(operation, (word)old, (word)value) | (two_words)applied(operation, (word)(old >> 32), (word)(value >> 32)) << 32;
}

/* ---- Bytes of private memory, or of an own copy */

static two_words plain_load(word address, word size)
{
    switch (size) {
    case 1: return *(unsigned char *)address;
    case 2: return *(unsigned short *)address;
    case 4: return *(word *)address;
    default: return *(two_words *)address;
    }
}

static void plain_store(word address, word size, two_words value)
{
    switch (size) {
    case 1: *(unsigned char *)address = (unsigned char)value; break;
    case 2: *(unsigned short *)address = (unsigned short)value; break;
    case 4: *(word *)address = (word)value; break;
    default: *(two_words *)address = value;
    }
}

/* ---- A number in the pair that is open at its word */

/* The bits of a number of 1, 2 or 4 bytes, and how far up in their word they are. */
IR_CALL word bits_of(word size)
{
    return size == 4 ? ~0u : (1u << size * 8) - 1;
}

IR_CALL word shift_of(word address)
{
    return (address & 3) * 8;
}

IR_CALL two_words both(struct open open)
{
    return open_get(open, 0) | (two_words)open_get(open, 1) << 32;
}

IR_CALL void set_both(struct open open, two_words value)
{
    open_put(open, 0, (word)value);
    open_put(open, 1, (word)(value >> 32));
}

/* ---- The operations */

/* A load that other stores of this thread may be ahead of, in the form of --tso. */
static two_words load_slowly(word address, word size)
{
    ir_settle();
    if (is_private(address, size, 0))
        return plain_load(address, size);
    ir_fetch(address, size);
    two_words value = plain_load(address, size);
    ir_clear(address, size);
    return value;
}

IR_CALL two_words load(word address, word size)
{
#ifdef IR_TSO
    return load_slowly(address, size);
#else
    if (size == 8)
        return load_slowly(address, size);
    struct open open = ir_open_read((void *)(address & ~3u));
    word value = open_get(open, 0);
    close(open);
    return value >> shift_of(address) & bits_of(size);
#endif
}

/* An operation on a number of 1, 2 or 4 bytes. */
IR_CALL word change_part(word address, word size, enum operation operation, word value)
{
    struct open open = ir_open((void *)(address & ~3u));
    word shift = shift_of(address), mask = bits_of(size) << shift, whole = open_get(open, 0), old = whole >> shift & bits_of(size);
    open_put(open, 0, (whole & ~mask) | (applied(operation, old, value) << shift & mask));
    close(open);
    return old;
}

static two_words change_both(word address, enum operation operation, two_words value)
{
    struct open open = ir_open((void *)address);
    two_words old = both(open);
    set_both(open, applied_to_two(operation, old, value));
    close(open);
    return old;
}

IR_CALL two_words change(word address, word size, enum operation operation, two_words value)
{
    return size == 8 ? change_both(address, operation, value) : change_part(address, size, operation, (word)value);
}

IR_CALL void store(word address, word size, two_words value, int order)
{
    (void)order;
#ifdef IR_TSO
    ir_settle();
    if (order != SEQ_CST && !is_private(address, size, 1)) {
        plain_store(address, size, value);
        ir_buffer(address, size);
        ir_clear(address, size);
        return;
    }
#endif
    change(address, size, EXCHANGE, value);
}

/* What is expected may be shared itself. */
static void set_expected(word address, word size, two_words value)
{
    plain_store(address, size, value);
    if (is_shared(address)) {
        ir_put(address, size);
        ir_clear(address, size);
    }
}

/* Puts a value of 1, 2 or 4 bytes if the one that is expected is there, and gives the one that was there. */
IR_CALL word exchange_part(word address, word size, word wanted, word value)
{
    struct open open = ir_open((void *)(address & ~3u));
    word shift = shift_of(address), mask = bits_of(size) << shift, whole = open_get(open, 0), old = whole >> shift & bits_of(size);
    if (old == wanted)
        open_put(open, 0, (whole & ~mask) | (value << shift & mask));
    close(open);
    return old;
}

static two_words exchange_both(word address, two_words wanted, two_words value)
{
    struct open open = ir_open((void *)address);
    two_words old = both(open);
    if (old == wanted)
        set_both(open, value);
    close(open);
    return old;
}

/* What is expected. Mostly it is on this thread's own stack: no other thread writes it there, and the compiler doesn't announce its own. */
static two_words expected_at(word address, word size)
{
    return address - ir_own_low < NUMBER(ir_slice) ? plain_load(address, size) : load_slowly(address, size);
}

IR_CALL int compare_exchange(word address, word size, word expected, two_words value)
{
    two_words wanted = expected_at(expected, size), old;
    old = size == 8 ? exchange_both(address, wanted, value) : exchange_part(address, size, (word)wanted, (word)value);
    if (old != wanted)
        set_expected(expected, size, old);
    return old == wanted;
}

/* ---- For each width */

#define CHANGE(bits, type, name, operation) \
    type __tsan_atomic##bits##_##name(volatile type *to, type value, int order) \
    { \
        (void)order; \
        return (type)change((word)to, bits / 8, operation, value); \
    }

#define COMPARE(bits, type, strength) \
    int __tsan_atomic##bits##_compare_exchange_##strength(volatile type *to, type *expected, type value, int order, int failed) \
    { \
        (void)order; \
        (void)failed; \
        return compare_exchange((word)to, bits / 8, (word)expected, value); \
    }

#define WIDTH(bits, type) \
    type __tsan_atomic##bits##_load(const volatile type *from, int order) \
    { \
        (void)order; \
        return (type)load((word)from, bits / 8); \
    } \
    void __tsan_atomic##bits##_store(volatile type *to, type value, int order) \
    { \
        store((word)to, bits / 8, value, order); \
    } \
    CHANGE(bits, type, exchange, EXCHANGE) \
    CHANGE(bits, type, fetch_add, ADD) \
    CHANGE(bits, type, fetch_sub, SUB) \
    CHANGE(bits, type, fetch_and, AND) \
    CHANGE(bits, type, fetch_or, OR) \
    CHANGE(bits, type, fetch_xor, XOR) \
    CHANGE(bits, type, fetch_nand, NAND) \
    COMPARE(bits, type, strong) \
    COMPARE(bits, type, weak)

WIDTH(8, unsigned char)
WIDTH(16, unsigned short)
WIDTH(32, word)
WIDTH(64, two_words)

void __tsan_atomic_thread_fence(int order)
{
    (void)order;
    ir_settle();
#ifdef IR_TSO
    if (order == SEQ_CST)
        ir_drain();
#endif
}

void __tsan_atomic_signal_fence(int order)
{
    (void)order;
}

_Bool __atomic_is_lock_free(unsigned size, const volatile void *object)
{
    (void)object;
    return size == 1 || size == 2 || size == 4 || size == 8;
}
