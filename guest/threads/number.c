/* Numbers of stdlib.h. */
#include "layer.h"
#include "include/stdlib.h"

enum { RANDOM = 5 };

static OWN word seed_is_given, seed;

int abs(int number) { return number < 0 ? -number : number; }
long labs(long number) { return number < 0 ? -number : number; }

static int is_blank(char byte)
{
    return byte == ' ' || (byte >= '\t' && byte <= '\r');
}

static const char *after_blanks(const char *text)
{
    while (is_blank(*text))
        text++;
    return text;
}

/* The number that the digits at the beginning of a text are. */
static int digits(const char *text)
{
    int number = 0;
    for (; *text >= '0' && *text <= '9'; text++)
        number = number * 10 + *text - '0';
    return number;
}

int atoi(const char *text)
{
    ir_settle();
    word size = ir_fetch_text(text, ~0u);
    const char *from = after_blanks(text);
    int is_negative = *from == '-', number = digits(from + (*from == '-' || *from == '+'));
    ir_clear((word)text, size + 1);
    return is_negative ? -number : number;
}

/* After srand each thread has a row of numbers of its own. Before it the numbers are those of the call RANDOM. */
void srand(unsigned from)
{
    ir_settle();
    seed_is_given = 1;
    seed = from;
}

int rand(void)
{
    ir_settle();
    if (!seed_is_given)
        return (int)(call_world(RANDOM) & RAND_MAX);
    seed = seed * 1103515245 + 12345;
    return (int)(seed >> 16 & 0x7fff) << 16 | (int)(seed & 0xffff);
}

int rand_r(unsigned *from)
{
    word number = ir_read(from) * 1103515245 + 12345;
    ir_write(from, number);
    return (int)(number >> 1);
}
