/* stdatomic.h, and the functions of gcc: each width, each operation. */
#include <pthread.h>
#include <stdatomic.h>
#include <stdbool.h>
#include <stdio.h>

static _Atomic unsigned char byte = 250;
static _Atomic short half = 5;
static atomic_int whole = 7;
static _Atomic long long large = 5;
static atomic_bool truth;
static atomic_flag flag = ATOMIC_FLAG_INIT;
static _Atomic(int *) pointer;
static struct pair { int value; } plain = {8};
static _Atomic struct pair record;
static atomic_uintptr_t address;
static int numbers[4] = {10, 20, 30, 40}, old;

/* One number for each call, since the order of arguments isn't said. */
static void show(int number)
{
    printf("%d\n", number);
}

static void *run(void *unused)
{
    for (int i = 0; i < 10; i++) {
        atomic_fetch_add(&byte, 1);
        atomic_fetch_sub(&half, 3);
        whole++;
        atomic_fetch_add_explicit(&large, 0x100000000LL, memory_order_relaxed);
    }
    return unused;
}

static void exchanges(void)
{
    int expected = 27;
    long long wide = 1;
    show(atomic_exchange(&whole, 100));
    show(atomic_compare_exchange_strong(&whole, &expected, 1));
    show(expected);
    show(atomic_compare_exchange_strong(&whole, &expected, 2));
    show(whole);
    show(atomic_compare_exchange_strong(&large, &wide, 7));
    printf("%llx\n", wide);
    show(atomic_compare_exchange_strong(&large, &wide, 7));
    printf("%llx\n", (unsigned long long)atomic_load(&large));
}

int main(void)
{
    pthread_t threads[2];
    for (int i = 0; i < 2; i++)
        pthread_create(&threads[i], NULL, run, NULL);
    for (int i = 0; i < 2; i++)
        pthread_join(threads[i], NULL);
    printf("sums %d %d %d %llx\n", byte, half, whole, (unsigned long long)large);
    exchanges();
    atomic_store(&whole, 12);
    show(atomic_fetch_and(&whole, 10));
    show(atomic_fetch_or(&whole, 3));
    show(atomic_fetch_xor(&whole, 6));
    show(whole);
    half = -1;
    half ^= 6;
    byte *= 2;
    large = large * 3 - 1;
    printf("by hand %d %d %llx\n", half, byte, (unsigned long long)large);
    show(atomic_flag_test_and_set(&flag));
    show(atomic_flag_test_and_set(&flag));
    atomic_flag_clear(&flag);
    show(atomic_flag_test_and_set(&flag));
    atomic_store(&truth, true);
    atomic_init(&pointer, numbers);
    pointer += 2;
    record = plain;
    plain.value = 0;
    plain = record;
    atomic_store(&address, 5);
    printf("others %d %d %d %d\n", atomic_load(&truth), *atomic_load(&pointer), plain.value, (int)atomic_load(&address));
    atomic_thread_fence(memory_order_seq_cst);
    atomic_signal_fence(memory_order_acquire);
    show(__atomic_add_fetch(&old, 5, __ATOMIC_SEQ_CST));
    show(__sync_fetch_and_add(&old, 2));
    show(__sync_bool_compare_and_swap(&old, 7, 9));
    show(__sync_val_compare_and_swap(&old, 8, 1));
    show(__sync_lock_test_and_set(&old, 3));
    show(__atomic_fetch_nand(&old, 1, __ATOMIC_RELAXED));
    __sync_lock_release(&old);
    __sync_synchronize();
    printf("at last %d %d\n", old, atomic_is_lock_free(&whole));
    return 0;
}
