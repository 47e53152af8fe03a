/* Printing, to this thread's output. There are no files, and no input. */
#ifndef IR_STDIO_H
#define IR_STDIO_H
#include <stdarg.h>
#include <stddef.h>
typedef struct ir_file FILE;
#define stdout ((FILE *)1)
#define stderr ((FILE *)2)
#define EOF (-1)
int printf(const char *format, ...) __attribute__((format(printf, 1, 2)));
int fprintf(FILE *file, const char *format, ...) __attribute__((format(printf, 2, 3)));
int sprintf(char *to, const char *format, ...) __attribute__((format(printf, 2, 3)));
int snprintf(char *to, size_t size, const char *format, ...) __attribute__((format(printf, 3, 4)));
int vprintf(const char *format, va_list list);
int vfprintf(FILE *file, const char *format, va_list list);
int vsnprintf(char *to, size_t size, const char *format, va_list list);
int puts(const char *text);
int fputs(const char *text, FILE *file);
int putchar(int byte);
int putc(int byte, FILE *file);
int fputc(int byte, FILE *file);
int fflush(FILE *file);
void perror(const char *text);
#endif
