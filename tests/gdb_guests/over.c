/* An array is filled one too far, and the word behind it is overwritten. Two threads, each with its own copy. */
#include "ir.h"
struct table { int scores[4]; int limit; };
IR_OWN static struct table table = { { 0, 0, 0, 0 }, 100 };
IR_OWN static char label[8] = "abcdefg";
IR_OWN static unsigned long long wide = 1;

static int square(int x)
{
    int r = x * x;
    return r;
}

static void fill(int last)
{
    for (int i = 0; i <= last; i++) {
        table.scores[i] = square(i);
        label[i & 7] = 'A' + i;
    }
}

static int sum(int n)
{
    if (n == 0)
        return 0;
    return n + sum(n - 1);
}

IR_THREAD(filler)
{
    int local = 7;
    wide += (unsigned long long)ir_self() << 32;
    local += sum(3);
    fill(ir_self() == 0 ? 4 : 3);
    local *= 2;
    ir_enter_write(0);
    ir_put(0, ir_self(), table.limit);
    ir_leave(0);
    ir_putn(local);
    return table.limit == 100 ? 0 : 1;
}
IR_THREADS(filler, filler);
IR_OBJECTS({0});
