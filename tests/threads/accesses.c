/* Plain accesses of every kind: numbers of each size, structs, bit-fields, unions, arrays, pointers, variables of functions. */
#include <pthread.h>
#include <stdint.h>
#include <stdio.h>

struct bits { unsigned a : 3, b : 5; unsigned c; int d : 9; };
struct wide { unsigned long long a : 40, b : 24; };
struct many { unsigned char a : 2, b : 3, c : 3; unsigned short d : 7, e : 9; };
struct three { int a, b, c; };
struct one { int value; };
struct tiny { char value; };
struct two_chars { char a, b; };
struct big { int values[20]; };
struct mixed { char a; short b; long long c; double d; };

static struct bits bits = {5, 9, 77, -3};
static struct wide wide = {0x123456789aULL, 0x654321};
static struct many many = {1, 2, 3, 4, 5}, *to_many = &many;
static struct three three = {1, 2, 3}, copy, array[3];
static struct one one, other = {9};
static struct tiny tiny[4] = {{1}, {2}, {3}, {4}};
static struct two_chars chars[3] = {{1, 2}, {3, 4}, {5, 6}};
static struct big big, also;
static struct mixed mixed = {1, 2, 3, 4.5};
static unsigned char bytes[7] = {1, 2, 3, 4, 5, 6, 7};
static short number = -3;
static long long large = 0x1122334455667788LL;
static double real = 1.5;
static float small = 2.5f;
static union { int whole; char parts[4]; } both;
static const char *const names[2] = {"zero", "one"};
static int *pointer, **pointers;
static volatile int loud = 4;

static struct three doubled(struct three value)
{
    value.a *= 2;
    value.b *= 2;
    value.c *= 2;
    return value;
}

static int count(void)
{
    static int calls;
    return ++calls;
}

static struct bits *also_bits;

static void *run(void *argument)
{
    int *local = argument;
    struct three mine = three, twice = doubled(mine);
    (*local)++;
    bits.b = 21;
    bits.d++;
    wide.a ^= 0xff;
    wide.b++;
    to_many->b = 7;
    to_many->e--;
    many.c ^= many.a;
    ((struct bits *)also_bits)->b++;
    copy = three;
    array[1] = copy;
    array[2] = twice;
    one = other;
    tiny[2] = tiny[0];
    tiny[1] = tiny[3];
    chars[2] = chars[0];
    chars[0] = chars[1];
    also.values[3] = 33;
    big = also;
    mixed.b++;
    mixed.c <<= 33;
    mixed.d *= 2;
    bytes[2]++;
    number--;
    large++;
    real *= 2;
    small += 1;
    both.parts[1] = 2;
    pointer = &bytes[0] == bytes ? &array[1].b : 0;
    pointers = &pointer;
    **pointers += 40;
    loud += loud;
    count();
    return NULL;
}

int main(void)
{
    pthread_t thread;
    int local = 40;
    short neighbour = 7;
    struct bits mine = {1, 2, 3, 4};
    also_bits = &mine;
    pthread_create(&thread, NULL, run, &local);
    pthread_join(thread, NULL);
    printf("local %d %d calls %d loud %d\n", local, neighbour, count(), loud);
    printf("bits %u %u %u %d\n", bits.a, bits.b, bits.c, bits.d);
    mine.a = 6;
    mine.d -= 5;
    printf("mine %u %u %u %d\n", mine.a, mine.b, mine.c, mine.d);
    printf("wide %llx %x many %d %d %d %d %d\n", (unsigned long long)wide.a, (unsigned)wide.b, many.a, many.b, many.c, many.d, many.e);
    bits.a = 2;
    bits.c--;
    printf("bits %u %u %u %d\n", bits.a, bits.b, bits.c, bits.d);
    printf("structs %d %d %d, %d %d %d, %d %d\n", copy.a, copy.b, copy.c, array[1].b, array[0].a, array[2].c, one.value, big.values[3]);
    printf("tiny %d %d %d %d chars %d %d %d %d\n", tiny[0].value, tiny[1].value, tiny[2].value, tiny[3].value, chars[0].a, chars[0].b, chars[2].a, chars[1].b);
    printf("mixed %d %d %llx %d\n", mixed.a, mixed.b, (unsigned long long)mixed.c, (int)(mixed.d * 10));
    printf("numbers %d %d %d %d %llx %d %d %d\n", bytes[1], bytes[2], bytes[6], number, (unsigned long long)large, (int)(real * 10), (int)(small * 10), both.whole);
    printf("names %s %s %d\n", names[1], names[local & 1], **pointers);
    return 0;
}
