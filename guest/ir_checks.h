/* What a guest on ir.h can't use. guest/ir.opts puts this file before each source in C, also those that don't include ir.h. */
#if !defined __ASSEMBLER__ && !defined IR_CHECKS_H
#define IR_CHECKS_H

#ifdef __cplusplus
#error "a guest is in C: there is no C++ for guests"
#endif

/* A thread has all variables for itself, so an atomic variable would be no thread's but its own. */
#define IR_NO_ATOMICS_ _Pragma("GCC error \"threads share objects only, so an atomic variable would be each thread's own: use ir_load, ir_store, ir_add, ir_swap and ir_cas of ir_sync.h, or leave out ir.h and compile by guest/ir-cc\"")
#define _Atomic IR_NO_ATOMICS_

#define __atomic_load(...) IR_NO_ATOMICS_
#define __atomic_load_n(...) IR_NO_ATOMICS_ 0
#define __atomic_store(...) IR_NO_ATOMICS_
#define __atomic_store_n(...) IR_NO_ATOMICS_
#define __atomic_load_1(...) IR_NO_ATOMICS_ 0
#define __atomic_load_2(...) IR_NO_ATOMICS_ 0
#define __atomic_load_4(...) IR_NO_ATOMICS_ 0
#define __atomic_store_1(...) IR_NO_ATOMICS_
#define __atomic_store_2(...) IR_NO_ATOMICS_
#define __atomic_store_4(...) IR_NO_ATOMICS_
#define __atomic_exchange(...) IR_NO_ATOMICS_
#define __atomic_exchange_n(...) IR_NO_ATOMICS_ 0
#define __atomic_compare_exchange(...) IR_NO_ATOMICS_ 0
#define __atomic_compare_exchange_n(...) IR_NO_ATOMICS_ 0
#define __atomic_add_fetch(...) IR_NO_ATOMICS_ 0
#define __atomic_sub_fetch(...) IR_NO_ATOMICS_ 0
#define __atomic_and_fetch(...) IR_NO_ATOMICS_ 0
#define __atomic_or_fetch(...) IR_NO_ATOMICS_ 0
#define __atomic_xor_fetch(...) IR_NO_ATOMICS_ 0
#define __atomic_nand_fetch(...) IR_NO_ATOMICS_ 0
#define __atomic_fetch_add(...) IR_NO_ATOMICS_ 0
#define __atomic_fetch_sub(...) IR_NO_ATOMICS_ 0
#define __atomic_fetch_and(...) IR_NO_ATOMICS_ 0
#define __atomic_fetch_or(...) IR_NO_ATOMICS_ 0
#define __atomic_fetch_xor(...) IR_NO_ATOMICS_ 0
#define __atomic_fetch_nand(...) IR_NO_ATOMICS_ 0
#define __atomic_test_and_set(...) IR_NO_ATOMICS_ 0
#define __atomic_clear(...) IR_NO_ATOMICS_
#define __atomic_thread_fence(...) IR_NO_ATOMICS_
#define __atomic_signal_fence(...) IR_NO_ATOMICS_
#define __sync_fetch_and_add(...) IR_NO_ATOMICS_ 0
#define __sync_fetch_and_sub(...) IR_NO_ATOMICS_ 0
#define __sync_fetch_and_or(...) IR_NO_ATOMICS_ 0
#define __sync_fetch_and_and(...) IR_NO_ATOMICS_ 0
#define __sync_fetch_and_xor(...) IR_NO_ATOMICS_ 0
#define __sync_fetch_and_nand(...) IR_NO_ATOMICS_ 0
#define __sync_add_and_fetch(...) IR_NO_ATOMICS_ 0
#define __sync_sub_and_fetch(...) IR_NO_ATOMICS_ 0
#define __sync_or_and_fetch(...) IR_NO_ATOMICS_ 0
#define __sync_and_and_fetch(...) IR_NO_ATOMICS_ 0
#define __sync_xor_and_fetch(...) IR_NO_ATOMICS_ 0
#define __sync_nand_and_fetch(...) IR_NO_ATOMICS_ 0
#define __sync_bool_compare_and_swap(...) IR_NO_ATOMICS_ 0
#define __sync_val_compare_and_swap(...) IR_NO_ATOMICS_ 0
#define __sync_lock_test_and_set(...) IR_NO_ATOMICS_ 0
#define __sync_lock_release(...) IR_NO_ATOMICS_
#define __sync_synchronize(...) IR_NO_ATOMICS_

#endif
