/* printf and its like. What a thread prints is its own output. */
#include "layer.h"
#include "include/stdio.h"

/* Where bytes go: the thread's output, or memory of a size. */
struct sink {
    char *to;
    word size, count;
};

/* How a value is printed. */
struct style {
    word width, precision, length;
    int is_left, has_precision;
    char pad, sign;
};

static void write(struct sink *sink, char byte)
{
    if (!sink->to)
        call_print((unsigned char)byte);
    else if (sink->count + 1 < sink->size)
        sink->to[sink->count] = byte;
    sink->count++;
}

static void write_pads(struct sink *sink, char pad, word count)
{
    while (count--)
        write(sink, pad);
}

static void write_bytes(struct sink *sink, const char *bytes, word count)
{
    while (count--)
        write(sink, *bytes++);
}

/* Bytes that are put at the left or at the right of the width. */
static void write_field(struct sink *sink, const struct style *style, const char *bytes, word count)
{
    word pads = style->width > count ? style->width - count : 0;
    if (!style->is_left)
        write_pads(sink, ' ', pads);
    write_bytes(sink, bytes, count);
    if (style->is_left)
        write_pads(sink, ' ', pads);
}

/* The digits of a number, from the end of a room on, and how many they are. */
static word digits(char *end, two_words number, word base, char ten)
{
    char *at = end;
    do {
        word digit = (word)(number >> 32 ? number % base : (word)number % base);
        *--at = (char)(digit < 10 ? '0' + digit : ten + digit - 10);
        number = number >> 32 ? number / base : (word)number / base;
    } while (number);
    return (word)(end - at);
}

/* A number with what stands before it: a sign, or 0x. */
static void write_number(struct sink *sink, const struct style *style, const char *before, two_words number, word base, char ten)
{
    char room[24];
    word count = style->has_precision && !style->precision && !number ? 0 : digits(room + sizeof room, number, base, ten);
    word first = before[0] ? 1 + (before[1] != 0) : 0, zeros = 0, pads;
    if (style->has_precision && style->precision > count)
        zeros = style->precision - count;
    else if (!style->has_precision && style->pad == '0' && !style->is_left && style->width > count + first)
        zeros = style->width - count - first;
    pads = style->width > first + zeros + count ? style->width - first - zeros - count : 0;
    if (!style->is_left)
        write_pads(sink, ' ', pads);
    write_bytes(sink, before, first);
    write_pads(sink, '0', zeros);
    write_bytes(sink, room + sizeof room - count, count);
    if (style->is_left)
        write_pads(sink, ' ', pads);
}

static void write_signed(struct sink *sink, const struct style *style, long long number)
{
    const char sign[2] = {number < 0 ? '-' : style->sign, 0};
    write_number(sink, style, sign, number < 0 ? -(two_words)number : (two_words)number, 10, 'a');
}

static void write_text(struct sink *sink, const struct style *style, const char *text)
{
    text = text ? text : "(null)";
    word size = ir_fetch_text(text, style->has_precision ? style->precision : ~0u);
    write_field(sink, style, text, size);
    ir_clear((word)text, size + 1);
}

/* A whole number that may be an argument. */
static const char *read_count(const char *format, va_list *list, word *count)
{
    if (*format == '*') {
        *count = va_arg(*list, word);
        return format + 1;
    }
    for (*count = 0; *format >= '0' && *format <= '9'; format++)
        *count = *count * 10 + (word)(*format - '0');
    return format;
}

static const char *read_flags(const char *format, struct style *style)
{
    for (;; format++)
        switch (*format) {
        case '-': style->is_left = 1; break;
        case '0': style->pad = '0'; break;
        case '+': case ' ': style->sign = *format; break;
        case '#': break;
        default: return format;
        }
}

/* Flags, width, precision and length; the conversion follows. */
static const char *read_style(const char *format, va_list *list, struct style *style)
{
    style->length = style->precision = 0;
    style->is_left = style->has_precision = 0;
    style->pad = ' ';
    style->sign = 0;
    format = read_count(read_flags(format, style), list, &style->width);
    if (*format == '.') {
        style->has_precision = 1;
        format = read_count(format + 1, list, &style->precision);
    }
    for (; *format == 'l' || *format == 'h' || *format == 'z' || *format == 't' || *format == 'j'; format++)
        style->length += *format == 'l' ? 1 : *format == 'j' ? 2 : *format == 'h' ? 16 : 0;
    return format;
}

static two_words unsigned_of(const struct style *style, va_list *list)
{
    if (style->length == 2)
        return va_arg(*list, two_words);
    word number = va_arg(*list, word);
    return style->length == 32 ? (unsigned char)number : style->length == 16 ? (unsigned short)number : number;
}

static long long signed_of(const struct style *style, va_list *list)
{
    if (style->length == 2)
        return va_arg(*list, long long);
    int number = va_arg(*list, int);
    return style->length == 32 ? (signed char)number : style->length == 16 ? (short)number : number;
}

/* A value by its conversion. */
static void convert(struct sink *sink, const struct style *style, char conversion, va_list *list)
{
    char byte;
    switch (conversion) {
    case 'd': case 'i': write_signed(sink, style, signed_of(style, list)); break;
    case 'u': write_number(sink, style, "", unsigned_of(style, list), 10, 'a'); break;
    case 'x': write_number(sink, style, "", unsigned_of(style, list), 16, 'a'); break;
    case 'X': write_number(sink, style, "", unsigned_of(style, list), 16, 'A'); break;
    case 'o': write_number(sink, style, "", unsigned_of(style, list), 8, 'a'); break;
    case 'p': write_number(sink, style, "0x", va_arg(*list, word), 16, 'a'); break;
    case 's': write_text(sink, style, va_arg(*list, const char *)); break;
    case 'c': byte = (char)va_arg(*list, int); write_field(sink, style, &byte, 1); break;
    case '%': write(sink, '%'); break;
    default: ir_wrong("printf: there are the conversions d i u x X o p s c and % only");
    }
}

static void write_all(struct sink *sink, const char *format, va_list *list)
{
    struct style style;
    ir_settle();
    word size = ir_fetch_text(format, ~0u);
    for (const char *at = format; *at; at++)
        if (*at != '%')
            write(sink, *at);
        else {
            at = read_style(at + 1, list, &style);
            convert(sink, &style, *at, list);
        }
    ir_clear((word)format, size + 1);
}

int vprintf(const char *format, va_list list)
{
    struct sink sink = {0, 0, 0};
    va_list rest;
    va_copy(rest, list);
    write_all(&sink, format, &rest);
    va_end(rest);
    return (int)sink.count;
}

int vsnprintf(char *to, size_t size, const char *format, va_list list)
{
    char none[1];
    struct sink sink = {size ? to : none, size, 0};
    va_list rest;
    va_copy(rest, list);
    write_all(&sink, format, &rest);
    va_end(rest);
    word end = sink.count < size ? sink.count : size - 1;
    if (!size)
        return (int)sink.count;
    to[end] = 0;
    if (!is_private((word)to, end + 1, 1)) {
        ir_buffer((word)to, end + 1);
        ir_clear((word)to, end + 1);
    }
    return (int)sink.count;
}

#define FORWARD(call) \
    va_list list; \
    va_start(list, format); \
    int count = call; \
    va_end(list); \
    return count

int printf(const char *format, ...) { FORWARD(vprintf(format, list)); }
int snprintf(char *to, size_t size, const char *format, ...) { FORWARD(vsnprintf(to, size, format, list)); }
int sprintf(char *to, const char *format, ...) { FORWARD(vsnprintf(to, 0x7fffffff, format, list)); }

int fprintf(FILE *file, const char *format, ...)
{
    (void)file;
    FORWARD(vprintf(format, list));
}

int vfprintf(FILE *file, const char *format, va_list list)
{
    (void)file;
    return vprintf(format, list);
}

int puts(const char *text) { return printf("%s\n", text); }
int putchar(int byte) { return printf("%c", byte) == 1 ? byte : EOF; }

int fputs(const char *text, FILE *file)
{
    (void)file;
    return printf("%s", text);
}

int putc(int byte, FILE *file)
{
    (void)file;
    return putchar(byte);
}

int fputc(int byte, FILE *file) { return putc(byte, file); }

int fflush(FILE *file)
{
    (void)file;
    ir_settle();
    return 0;
}

void perror(const char *text) { printf("%s\n", text); }
