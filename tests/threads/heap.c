/* malloc and its like: memory that is used again, and memory that threads share. */
#include <pthread.h>
#include <stdio.h>
#include <stdlib.h>
#include <string.h>

struct node {
    int value;
    struct node *next;
};

static struct node *list;
static pthread_mutex_t lock = PTHREAD_MUTEX_INITIALIZER;

static void *push(void *argument)
{
    for (int i = 0; i < 3; i++) {
        struct node *node = malloc(sizeof *node);
        node->value = *(int *)argument * 10 + i;
        pthread_mutex_lock(&lock);
        node->next = list;
        list = node;
        pthread_mutex_unlock(&lock);
    }
    return NULL;
}

static void pop_all(void)
{
    int sum = 0, count = 0;
    while (list) {
        struct node *node = list;
        list = node->next;
        sum += node->value;
        count++;
        free(node);
    }
    printf("list %d %d\n", sum, count);
}

static void sizes(void)
{
    int *squares = malloc(24), *zeros = calloc(4, 4), sum = 0;
    for (int i = 0; i < 6; i++)
        squares[i] = i * i;
    for (int i = 0; i < 4; i++)
        sum += zeros[i];
    memcpy(zeros, squares + 4, 8);
    squares = realloc(squares, 48);
    squares[11] = 7;
    printf("sizes %d %d %d %d %d %d\n", sum, zeros[0], zeros[1], zeros[2], squares[5], squares[11]);
    free(NULL);
    free(squares);
    free(zeros);
    char *none = malloc(0);
    free(none);
    for (int i = 0; i < 40; i++)
        free(malloc(100));
    printf("large %d %d\n", malloc((size_t)-1) == NULL, calloc((size_t)-1 / 2, 4) == NULL);
}

int main(void)
{
    static int names[2] = {1, 2};
    pthread_t threads[2];
    sizes();
    for (int i = 0; i < 2; i++)
        pthread_create(&threads[i], NULL, push, &names[i]);
    for (int i = 0; i < 2; i++)
        pthread_join(threads[i], NULL);
    pop_all();
    char *text = strdup("hello");
    printf("%s\n", text);
    free(text);
    return 0;
}
