/* Variables of main's frame that other threads use, and structs that the compiler copies there. */
#include <pthread.h>
#include <stdio.h>
#include <string.h>

struct named {
    int number;
    char name[9];
};

struct box {
    char *text;
    int *numbers;
    struct named *named;
    double *real;
    int (*rows)[2];
};

static struct named global;

static struct named made(int number)
{
    struct named new = {number, "made"};
    return new;
}

static struct named *copied(struct named *to, int number)
{
    struct named new = made(number);
    *to = new;
    return to;
}

static void *run(void *argument)
{
    struct box *box = argument;
    printf("thread %s %d %d %d %s", box->text, box->numbers[0], box->numbers[2], box->named->number, box->named->name);
    printf(" %d %d\n", (int)(*box->real * 4), box->rows[1][1]);
    global = *box->named;
    box->numbers[1] = 50;
    box->named->number = 60;
    *box->real = 2.5;
    box->rows[0][0] = 70;
    box->text[1] = 'X';
    return NULL;
}

int main(int count, char **arguments)
{
    pthread_t thread;
    char text[] = "abcdefghij";
    int numbers[3] = {1, 2, 3}, zeros[8] = {0}, rows[2][2] = {{1, 2}, {3, 4}};
    struct named named = {4, "four"}, copy = named, new;
    double real = 1.5;
    struct box box = {text, numbers, &copy, &real, rows};
    struct named also = *copied(&new, count);
    pthread_create(&thread, NULL, run, &box);
    pthread_join(thread, NULL);
    also.number += new.number;
    printf("%s %d %d %d %s %d %d %d %d\n", text, numbers[1], zeros[3], copy.number, copy.name, named.number, (int)(real * 2), rows[0][0], rows[1][0]);
    printf("%d %s %d %s %d\n", also.number, also.name, global.number, global.name, arguments[count] == NULL);
    for (int i = 0; i < 3; i++) {
        int inner[2] = {i, i}, *pointer = inner;
        pointer[1] += 5;
        zeros[i] = pointer[0] + pointer[1];
    }
    memmove(zeros + 1, zeros, 2 * sizeof *zeros);
    printf("%d %d %d\n", zeros[0], zeros[1], zeros[2]);
    return 0;
}
