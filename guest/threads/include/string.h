/* Memory and texts. The compiler calls functions of the names memcpy, memmove and memset to copy and clear what it has announced, so those
   that a program calls have other names. */
#ifndef IR_STRING_H
#define IR_STRING_H
#include <stddef.h>
void *memcpy(void *restrict to, const void *restrict from, size_t size) __asm__("ir_memcpy");
void *memmove(void *to, const void *from, size_t size) __asm__("ir_memmove");
void *memset(void *to, int byte, size_t size) __asm__("ir_memset");
int memcmp(const void *one, const void *other, size_t size);
void *memchr(const void *pointer, int byte, size_t size);
size_t strlen(const char *text);
size_t strnlen(const char *text, size_t most);
int strcmp(const char *one, const char *other);
int strncmp(const char *one, const char *other, size_t most);
char *strcpy(char *restrict to, const char *restrict from);
char *strncpy(char *restrict to, const char *restrict from, size_t size);
char *strcat(char *restrict to, const char *restrict from);
char *strchr(const char *text, int byte);
char *strdup(const char *text);
#endif
