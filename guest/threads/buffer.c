/* The store buffers of ir-cc --tso: a thread's stores wait in a row of IR_TSO entries, and reach their objects in that order. */
#include "layer.h"

#ifdef IR_TSO

/* The linker makes one more object if this symbol is there: that of free choices, in which no thread stays. */
__asm__(".globl ir_uses_buffer\n\t.set ir_uses_buffer, 1");
extern char ir_choice[];

/* A store of bytes of one pair. Entries that are free are 0, and the last is always. */
struct store {
    word address, size, bytes[2];
};

static OWN struct store stores[IR_TSO + 1];
static OWN word count;

/* ---- One entry */

/* The byte of an entry that is stored at an address. */
IR_CALL unsigned char *byte_of(struct store *store, word address)
{
    return (unsigned char *)store->bytes + (address & 7);
}

/* Puts the bytes of an entry that are in a word. */
static void put_word(word object, struct store *store, word at)
{
    word end = store->address + store->size, from = store->address > at ? store->address - at : 0, to = end - at < 4 ? end - at : 4;
    word index = index_of(at), mask = mask_of(from, to), value = store->bytes[at >> 2 & 1];
    call_put(object, index, (value & mask) | (call_get(object, index) & ~mask));
}

/* Puts an entry into its object. */
static void put_store(struct store *store)
{
    word object = object_of(store->address);
    enter_write(object);
    for (word at = store->address & ~3u; at < store->address + store->size; at += 4)
        put_word(object, store, at);
    call_leave(object);
}

/* ---- The row */

/* Copies an entry, word by word: a struct's copy may be a call of memcpy, which is the program's. */
static void copy(struct store *to, const struct store *from)
{
    to->address = from->address;
    to->size = from->size;
    to->bytes[0] = from->bytes[0];
    to->bytes[1] = from->bytes[1];
}

static void clear(struct store *store)
{
    store->address = store->size = store->bytes[0] = store->bytes[1] = 0;
}

static void drain_one(void)
{
    struct store oldest;
    copy(&oldest, &stores[0]);
    count--;
    for (word i = 0; i < count; i++)
        copy(&stores[i], &stores[i + 1]);
    clear(&stores[count]);
    put_store(&oldest);
}

void ir_drain(void)
{
    while (count)
        drain_one();
}

/* A free choice: an attempt to enter an object may be refused at any moment. */
static int may_wait(void)
{
    IR_REGISTER(a0, NUMBER(ir_choice));
    __asm__ volatile("li a3, 0\n\tli a4, 0\n\tli a5, 0\n\tli ra, 0\n\tjal t0, ir_gate_try" : "+r"(a0_) : : "a3", "a4", "a5", "ra", IR_DEAD);
    word is_in = a0_;
    if (is_in)
        call_leave(NUMBER(ir_choice));
    return (int)is_in;
}

void ir_drain_some(void)
{
    while (count && !may_wait())
        drain_one();
}

/* Adds a store of bytes of one pair, which are in the own copy. */
static void add(word address, word size)
{
    if (count == IR_TSO)
        drain_one();
    struct store *store = &stores[count++];
    store->address = address;
    store->size = size;
    for (word i = 0; i < size; i++)
        *byte_of(store, address + i) = ((volatile unsigned char *)address)[i];
}

/* A store of up to 8 bytes within a pair is one entry. A longer one is an entry for each word. */
void ir_buffer(word address, word size)
{
    word end = address + size, whole = (address & 7) + size <= 8;
    while (address < end) {
        word next = whole ? end : (address | 3) + 1;
        next = next < end ? next : end;
        if (is_shared(address))
            add(address, next - address);
        address = next;
    }
}

/* Takes the bytes of an entry into the own copy of address..end. */
static void forward(struct store *store, word address, word end)
{
    for (word i = store->address; i < store->address + store->size; i++)
        if (i >= address && i < end)
            *(volatile unsigned char *)i = *byte_of(store, i);
}

void ir_forward(word address, word size)
{
    for (word i = 0; i < count; i++)
        forward(&stores[i], address, address + size);
}

#endif
