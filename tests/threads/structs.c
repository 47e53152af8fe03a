/* Structs that are passed and returned by value, in functions other than main. */
#include <pthread.h>
#include <stdio.h>

struct three {
    int a, b, c;
};

struct small {
    short a, b;
};

static struct three global = {7, 8, 9};
static struct small tiny = {1, 2};

static void change(struct three *three)
{
    three->b += 10;
}

static int sum(struct three three)
{
    struct three *pointer = &three;
    change(pointer);
    return pointer->a + pointer->b * 2 + three.c * 3;
}

static struct three made(int number)
{
    struct three new = {number, number + 1, number + 2};
    change(&new);
    return new;
}

static struct small swapped(struct small small)
{
    struct small other = {small.b, small.a};
    return other;
}

static int all(int number)
{
    struct three local = made(number), copy = global;
    struct small mine = tiny, other;
    other = swapped(mine);
    change(&local);
    return sum(local) + sum(copy) + made(number).b + other.a * 100 + other.b;
}

static void *run(void *argument)
{
    printf("thread %d\n", all(*(int *)argument));
    global.a = 17;
    return NULL;
}

int main(void)
{
    pthread_t thread;
    int number = 3;
    pthread_create(&thread, NULL, run, &number);
    pthread_join(thread, NULL);
    printf("%d %d\n", all(4), number);
    return 0;
}
