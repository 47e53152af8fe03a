/* Memory and texts: what is shared is fetched, looked at or changed in the own copy, and put. */
#include "layer.h"
#include "include/string.h"

/* Fetches bytes if they are shared. */
static void fetch(const void *pointer, word size)
{
    word address = (word)pointer;
    if (size && !is_private(address, size, 0))
        ir_fetch(address, size);
}

/* Puts bytes if they are shared. */
static void put(void *pointer, word size)
{
    word address = (word)pointer;
    if (size && !is_private(address, size, 1)) {
        ir_buffer(address, size);
        ir_clear(address, size);
    }
}

static void clear(const void *pointer, word size)
{
    ir_clear((word)pointer, size);
}

word ir_fetch_text(const char *text, word most)
{
    for (word count = 0; count < most; count++) {
        word address = (word)text + count;
        if (!count || !(address & 7))
            fetch(text + count, 8 - (address & 7));
        if (!text[count])
            return count;
    }
    return most;
}

/* ---- Copies within own memory */

static void copy_up(char *to, const char *from, word size)
{
    for (word i = 0; i < size; i++) {
        to[i] = from[i];
        KEEP_LOOP;
    }
}

static void copy_down(char *to, const char *from, word size)
{
    while (size--) {
        to[size] = from[size];
        KEEP_LOOP;
    }
}

static void copy_words(word *to, const word *from, word size)
{
    for (word i = 0; i < size / 4; i++) {
        to[i] = from[i];
        KEEP_LOOP;
    }
}

static void copy(void *to, const void *from, word size)
{
    if (to > from)
        copy_down(to, from, size);
    else if (((word)to | (word)from | size) & 3)
        copy_up(to, from, size);
    else
        copy_words(to, from, size);
}

static void fill(char *to, char byte, word size)
{
    while (size--) {
        *to++ = byte;
        KEEP_LOOP;
    }
}

/* ---- Memory, as a program calls it */

void *memmove(void *to, const void *from, size_t size)
{
    ir_settle();
    fetch(from, size);
    copy(to, from, size);
    put(to, size);
    clear(from, size);
    return to;
}

void *memcpy(void *restrict to, const void *restrict from, size_t size) { return memmove(to, from, size); }

void *memset(void *to, int byte, size_t size)
{
    ir_settle();
    fill(to, (char)byte, size);
    put(to, size);
    return to;
}

/* ---- Memory, as the compiler calls it: what it reads and writes is announced, or is this thread's own */

static int is_own(const void *pointer)
{
    return (word)pointer - ir_own_low < NUMBER(ir_slice);
}

static int may_read(const void *pointer)
{
    return is_own(pointer) || !is_shared((word)pointer) || ir_seen.address == ((word)pointer & ~3u);
}

static int may_write(void *pointer, size_t size)
{
    return is_own(pointer) || ir_is_announced((word)pointer, size);
}

void *ir_compiler_memcpy(void *to, const void *from, size_t size) __asm__("memcpy");
void *ir_compiler_memmove(void *to, const void *from, size_t size) __asm__("memmove");
void *ir_compiler_memset(void *to, int byte, size_t size) __asm__("memset");

/* A program that declares these itself calls them too. */
void *ir_compiler_memcpy(void *to, const void *from, size_t size)
{
    if (!may_write(to, size) || !may_read(from))
        return memmove(to, from, size);
    copy(to, from, size);
    return to;
}

void *ir_compiler_memmove(void *to, const void *from, size_t size) { return ir_compiler_memcpy(to, from, size); }

void *ir_compiler_memset(void *to, int byte, size_t size)
{
    if (!may_write(to, size))
        return memset(to, byte, size);
    fill(to, (char)byte, size);
    return to;
}

/* Compares up to a byte that differs, or up to the end of both texts. */
static int compare(const char *one, const char *other, word size, int are_texts)
{
    int difference = 0;
    for (word i = 0; i < size && !difference; i++) {
        difference = (unsigned char)one[i] - (unsigned char)other[i];
        if (are_texts && !one[i])
            break;
    }
    return difference;
}

static int compare_and_clear(const char *one, const char *other, word size, int are_texts)
{
    int difference = compare(one, other, size, are_texts);
    clear(one, size);
    clear(other, size);
    return difference;
}

int memcmp(const void *one, const void *other, size_t size)
{
    ir_settle();
    fetch(one, size);
    fetch(other, size);
    return compare_and_clear(one, other, size, 0);
}

void *memchr(const void *pointer, int byte, size_t size)
{
    const char *from = pointer;
    word at = 0;
    ir_settle();
    fetch(pointer, size);
    while (at < size && from[at] != (char)byte)
        at++;
    clear(pointer, size);
    return at < size ? (char *)from + at : 0;
}

/* ---- Texts */

size_t strlen(const char *text)
{
    ir_settle();
    word size = ir_fetch_text(text, ~0u);
    clear(text, size + 1);
    return size;
}

size_t strnlen(const char *text, size_t most)
{
    ir_settle();
    word size = ir_fetch_text(text, most);
    clear(text, size);
    return size;
}

int strcmp(const char *one, const char *other)
{
    return strncmp(one, other, ~0u);
}

int strncmp(const char *one, const char *other, size_t most)
{
    ir_settle();
    word size = ir_fetch_text(one, most), length = ir_fetch_text(other, most);
    size = (size > length ? size : length) + 1;
    return compare_and_clear(one, other, size < most ? size : most, 1);
}

char *strcpy(char *restrict to, const char *restrict from)
{
    memmove(to, from, strlen(from) + 1);
    return to;
}

char *strncpy(char *restrict to, const char *restrict from, size_t size)
{
    word length = strnlen(from, size);
    memmove(to, from, length);
    memset(to + length, 0, size - length);
    return to;
}

char *strcat(char *restrict to, const char *restrict from)
{
    strcpy(to + strlen(to), from);
    return to;
}

char *strchr(const char *text, int byte)
{
    return memchr(text, byte, strlen(text) + 1);
}
