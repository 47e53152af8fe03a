/* A message is made and its address is published. The address is written before the message. */
#include <assert.h>
#include <pthread.h>
#include <stdatomic.h>
#include <stdlib.h>

struct message {
    int number, check;
};

static _Atomic(struct message *) mailbox;

static void *send(void *unused)
{
    struct message *message = malloc(sizeof *message);
#ifdef REPAIRED
    message->number = 5;
    message->check = 10;
    atomic_store(&mailbox, message);
#else
    atomic_store(&mailbox, message);
    message->number = 5;
    message->check = 10;
#endif
    return unused;
}

int main(void)
{
    pthread_t thread;
    pthread_create(&thread, NULL, send, NULL);
    struct message *message;
    while (!(message = atomic_load(&mailbox))) { }
    assert(message->number == 5 && message->check == 10);
    pthread_join(thread, NULL);
    free(message);
    return 0;
}
