/* A guest on ir.h has no atomic variables. This file is found before the compiler's. */
#error "threads share objects only, so an atomic variable would be each thread's own: use ir_load, ir_store, ir_add, ir_swap and ir_cas of ir_sync.h, or leave out ir.h and compile by guest/ir-cc"
