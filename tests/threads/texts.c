/* Functions of string.h over memory that threads share, and over memory that they don't. */
#include <pthread.h>
#include <stdio.h>
#include <stdlib.h>
#include <string.h>

static char text[24] = "shared", bytes[16];
static int numbers[6] = {1, 2, 3, 4, 5, 6}, also[6];

static int sign(int number)
{
    return (number > 0) - (number < 0);
}

static void *run(void *unused)
{
    char local[16] = "local", copy[16];
    strcpy(copy, text);
    strcat(local, "+");
    strcat(text, local);
    memcpy(also, numbers, sizeof also);
    memmove(numbers + 1, numbers, 5 * sizeof *numbers);
    memset(bytes, 'x', 5);
    printf("thread %s %s %d\n", copy, local, (int)strlen(text));
    return unused;
}

int main(void)
{
    pthread_t thread;
    char narrow[4], exact[8];
    pthread_create(&thread, NULL, run, NULL);
    pthread_join(thread, NULL);
    printf("%s %d %d\n", text, (int)strlen(text), (int)strnlen(text, 3));
    for (int i = 0; i < 6; i++)
        printf("%d/%d ", numbers[i], also[i]);
    memmove(numbers, numbers + 2, 3 * sizeof *numbers);
    printf("%d %d %s\n", numbers[0], numbers[2], bytes);
    printf("compare %d %d %d %d", sign(strcmp(text, "shared")), sign(strcmp("a", "b")), strcmp(text, "shared+"), strcmp("", ""));
    printf(" %d %d %d", strncmp(text, "shaped", 3), sign(strncmp(text, "shaped", 4)), memcmp(also, also, 24));
    printf(" %d %d\n", sign(memcmp("abc", "abd", 3)), sign(memcmp(bytes, "xxxxy", 5)));
    strncpy(narrow, text, sizeof narrow);
    strncpy(exact, "ab", sizeof exact);
    printf("copy %.4s %s %d\n", narrow, exact, exact[7]);
    printf("find %s %d %d\n", strchr(text, 'r'), strchr(text, 'z') == NULL, (int)((char *)memchr(bytes, 0, 16) - bytes));
    printf("numbers %d %d %d %d\n", atoi("42"), atoi(" -17x"), abs(-5), atoi(text));
    return 0;
}
