/* printf and its like: each conversion, widths, 64 bits, and texts that are made. */
#include <inttypes.h>
#include <limits.h>
#include <stdint.h>
#include <stdio.h>

static char room[32];

int main(void)
{
    long long large = -1234567890123456789LL;
    unsigned long long most = ULLONG_MAX;
    char narrow[6];
    printf("%d %i %u %x %X %o %c %s %%\n", -5, INT_MIN, UINT_MAX, 0xbeef, 0xBEEF, 8, 'c', "text");
    printf("%lld %llu %llx %lld\n", large, most, most - 15, LLONG_MIN);
    printf("[%5d] [%-5d] [%05d] [%+d] [% d] [%3d]\n", 42, 42, -42, 42, 42, 12345);
    printf("[%8x] [%08x] [%-8x] [%.3d] [%6.3d] [%.0d]\n", 255, 255, 255, 7, 7, 0);
    printf("[%6s] [%-6s] [%.2s] [%*d] [%-*d] [%3c]\n", "abc", "abc", "abc", 4, 1, 4, 1, 'z');
    printf("%hhd %hd %hhu %hu %zu %" PRId64 " %" PRIu32 "\n", 300, 70000, 300, 70000, sizeof(int), INT64_C(5), UINT32_C(6));
    printf("[%020lld] [%-22llx] [%22llu]\n", large, most, most);
    printf("%d", snprintf(room, sizeof room, "%d-%s", 77, "seven"));
    printf(" %s", room);
    printf(" %d", snprintf(narrow, sizeof narrow, "%s", "too long"));
    printf(" %s", narrow);
    printf(" %d", snprintf(NULL, 0, "%llx", most));
    printf(" %d %s\n", sprintf(room, "%c%c", 'o', 'k'), room);
    puts("puts");
    putchar('p');
    putchar('\n');
    fputs("fputs\n", stdout);
    fprintf(stdout, "%s %d\n", "fprintf", 1);
    fflush(stdout);
    return 0;
}
