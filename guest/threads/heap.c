/* The heap: units of 16 bytes. In its object the first seven words say which units are used, the next seven which are the last of a block.
   malloc takes the first units that are free, so freed memory is used again. */
#include "layer.h"
#include "include/errno.h"
#include "include/stdlib.h"
#include "include/string.h"

/* The linker makes room for the heap if this symbol is there. */
__asm__(".globl ir_uses_heap\n\t.set ir_uses_heap, 1");

enum { UNIT = 16, LAST = 7, MOST = 7 * 32 };

IR_CALL word heap(void)
{
    return NUMBER(ir_heap_object);
}

/* How many units there are. */
static word all_units(void)
{
    word units = (NUMBER(ir_heap_end) - NUMBER(ir_heap)) / UNIT;
    return units < MOST ? units : MOST;
}

IR_CALL int bit(word row, word unit)
{
    return call_get(heap(), row + unit / 32) >> unit % 32 & 1;
}

IR_CALL void set_bit(word row, word unit, word value)
{
    word index = row + unit / 32, mask = 1u << unit % 32;
    call_put(heap(), index, (call_get(heap(), index) & ~mask) | value << unit % 32);
}

/* The end of the first row of free units of this length, or 0 if there is none. */
static word first_fit(word need)
{
    word all = all_units(), row = 0, unit = 0;
    for (; unit < all && row < need; unit++)
        row = bit(0, unit) ? 0 : row + 1;
    return row == need ? unit : 0;
}

static void set_used(word from, word end)
{
    set_bit(LAST, end - 1, 1);
    for (; from < end; from++)
        set_bit(0, from, 1);
}

void *malloc(size_t size)
{
    ir_settle();
    ir_drain();
    if (size > MOST * UNIT) {
        errno = ENOMEM;
        return 0;
    }
    word need = size ? (size + UNIT - 1) / UNIT : 1;
    enter_write(heap());
    word end = first_fit(need);
    if (end)
        set_used(end - need, end);
    call_leave(heap());
    if (!end)
        ir_wrong("the heap is full: ir-cc --heap N gives it N bytes");
    return (void *)(NUMBER(ir_heap) + (end - need) * UNIT);
}

/* The first unit of a block. Ends the process if there is no such block. */
static word block_of(const void *pointer)
{
    word from = (word)pointer - NUMBER(ir_heap), unit = from / UNIT;
    if (from % UNIT || unit >= all_units())
        ir_wrong("free or realloc of what malloc didn't give");
    enter_write(heap());
    int is_block = bit(0, unit) && (!unit || !bit(0, unit - 1) || bit(LAST, unit - 1));
    if (is_block)
        return unit;
    call_leave(heap());
    ir_wrong("free or realloc of what malloc didn't give, or of what is free");
}

/* How many units a block has. */
static word length_of(word unit)
{
    word end = unit;
    while (!bit(LAST, end))
        end++;
    return end - unit + 1;
}

static void set_free(word from, word end)
{
    set_bit(LAST, end - 1, 0);
    for (; from < end; from++)
        set_bit(0, from, 0);
}

void free(void *pointer)
{
    ir_settle();
    ir_drain();
    if (!pointer)
        return;
    word unit = block_of(pointer);
    set_free(unit, unit + length_of(unit));
    call_leave(heap());
}

void *calloc(size_t count, size_t size)
{
    if (size && count > MOST * UNIT / size) {
        errno = ENOMEM;
        return 0;
    }
    void *pointer = malloc(count * size);
    return pointer ? memset(pointer, 0, count * size) : 0;
}

void *realloc(void *pointer, size_t size)
{
    if (!pointer)
        return malloc(size);
    ir_settle();
    ir_drain();
    word old = length_of(block_of(pointer)) * UNIT;
    call_leave(heap());
    void *larger = malloc(size);
    if (larger) {
        memcpy(larger, pointer, size < old ? size : old);
        free(pointer);
    }
    return larger;
}

char *strdup(const char *text)
{
    word size = strlen(text) + 1;
    char *to = malloc(size);
    return to ? memcpy(to, text, size) : 0;
}
