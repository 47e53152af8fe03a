/* The shared range: own copies of variables, and the words of objects that hold them. */
#include "layer.h"

OWN word ir_number, ir_own_low;

/* ---- Bytes of a word */

/* Takes the bytes from..end of a word into the own copy, and leaves the others. */
static void take(word address, word from, word end, word value)
{
    if (from == 0 && end == 4) {
        *(word *)address = value;
        return;
    }
    for (; from < end; from++) {
        ((volatile unsigned char *)address)[from] = (unsigned char)(value >> from * 8);
        KEEP_LOOP;
    }
}

/* Puts the bytes from..end of a word of the own copy into the object that is open. */
static void give(word object, word address, word from, word end)
{
    word value = *(word *)address, index = index_of(address);
    if (from != 0 || end != 4) {
        word mask = mask_of(from, end);
        value = (value & mask) | (call_get(object, index) & ~mask);
    }
    call_put(object, index, value);
}

/* ---- Ranges: each pair of words is an entry */

/* Where address..end begins and stops within the word `at`. */
IR_CALL word first_of(word at, word address)
{
    return address > at ? address - at : 0;
}

IR_CALL word last_of(word at, word end)
{
    return end - at < 4 ? end - at : 4;
}

/* Fetches what of address..end is in the pair of `at`. */
static void fetch_pair(word at, word address, word end)
{
    word object = object_of(at), stop = (at | 7) + 1;
    enter_read(object);
    for (; at < end && at < stop; at += 4)
        take(at, first_of(at, address), last_of(at, end), call_get(object, index_of(at)));
    call_leave(object);
}

void ir_fetch(word address, word size)
{
    word end = address + size;
    for (word at = address & ~3u; at < end; at = (at | 7) + 1)
        if (is_shared(at))
            fetch_pair(at, address, end);
#ifdef IR_TSO
    ir_forward(address, size);
#endif
}

/* Puts what of address..end is in the pair of `at`. */
static void put_pair(word at, word address, word end)
{
    word object = object_of(at), stop = (at | 7) + 1;
    enter_write(object);
    for (; at < end && at < stop; at += 4)
        give(object, at, first_of(at, address), last_of(at, end));
    call_leave(object);
}

void ir_put(word address, word size)
{
    word end = address + size;
    ir_drain();
    for (word at = address & ~3u; at < end; at = (at | 7) + 1)
        if (is_shared(at))
            put_pair(at, address, end);
}

void ir_clear(word address, word size)
{
    word end = address + size;
    for (word at = address & ~3u; at < end; at += 4)
        if (is_shared(at) && may_clear(at))
            *(volatile word *)at = 0;
}

/* ---- Words that functions of the layer read and write */

word ir_read(const volatile void *pointer)
{
    struct open open = ir_open_read(pointer);
    word value = open_get(open, 0);
    close(open);
    return value;
}

void ir_write(volatile void *pointer, word value)
{
    struct open open = ir_open(pointer);
    open_put(open, 0, value);
    close(open);
}

void ir_write_pair(volatile void *pointer, word first, word second)
{
    struct open open = ir_open(pointer);
    open_put(open, 0, first);
    open_put(open, 1, second);
    close(open);
}

void ir_pause(void)
{
    for (word turns = 16; turns--;)
        KEEP_LOOP;
}
