/* Where the linker puts a guest that is an ordinary program with threads. guest/ir-cc links by it.

     0x00010000  code and constants, at most 65,536 bytes
     0x00100000  memory of 65,536 bytes, which each thread has for itself:
                   the stacks: a slice of ir_slice bytes for each thread, that of thread 0 uppermost
                   the shared range: the upper ir_window bytes of thread 0's stack, all variables, and the heap
                   the layer's own variables
     0x00200000  the table: the form, where each thread begins, and the objects' first words, which guest/ir-cc fills in

   Words of objects hold the shared range. The objects are: a gate for each thread but thread 0, one of the heap if malloc is used,
   as many of 14 words as the shared range needs, and one of free choices with --tso. */

OUTPUT_ARCH(riscv)
ENTRY(ir_begin)

PHDRS
{
  code PT_LOAD FLAGS(5);
  own PT_LOAD FLAGS(6);
  table PT_LOAD FLAGS(4);
}

ir_threads = DEFINED(ir_threads_) ? ir_threads_ : 4;
ir_slice = DEFINED(ir_slice_) ? (ir_slice_ + 15) / 16 * 16 : ir_threads > 8 ? 0x800 : 0x1000;
ir_window = DEFINED(ir_window_) ? (ir_window_ + 7) / 8 * 8 : 128;
ir_nested = DEFINED(ir_nested_) ? ir_nested_ : 0;
ir_bits = DEFINED(ir_bits_) ? ir_bits_ : 1;
ir_frames = DEFINED(ir_frames_) ? ir_frames_ : 1;

SECTIONS
{
  /DISCARD/ : { *(.comment .note .note.* .eh_frame .eh_frame_hdr .init_array.00099 .got .got.plt .rela.dyn) }

  . = 0x00010000;
  .text : { KEEP(*(.ir.begin)) *(.text .text.*) } :code
  .rodata : { *(.rodata .rodata.* .srodata .srodata.* .data.rel.ro .data.rel.ro.*) } :code
  .tdata : ALIGN(8) { ir_tls = .; *(.tdata .tdata.*) ir_tls_filled = .; *(.tbss .tbss.*) . = ALIGN(4); ir_tls_end = .; } :code
  . = .;
  ir_code_end = .;
  ASSERT(. <= 0x00020000, "threads.ld: code and constants are over 65536 bytes; -Os makes less code")

  ir_stack_low = 0x00100000;
  ir_stack_top = ir_stack_low + ir_threads * ir_slice;
  ir_shared = ir_stack_top - ir_window;
  ASSERT(ir_tls_end - ir_tls < ir_slice / 2, "threads.ld: thread-local variables are over half of a thread's stack")
  ASSERT(ir_window <= ir_slice, "threads.ld: the window is larger than the stack")

  . = ir_stack_top;
  .data : { ir_data = .; *(.data .data.* .sdata .sdata.*) . = ALIGN(8); ir_data_end = .; } :own
  .bss : ALIGN(8) {
    *(.bss .bss.[!i]* .bss.i[!r]* .sbss .sbss.* COMMON)
    . = ALIGN(16);
    ir_heap = .;
    . += DEFINED(ir_uses_heap) ? (DEFINED(ir_heap_) ? ir_heap_ : 512) : 0;
    . = ALIGN(8);
    ir_heap_end = .;
  } :own
  ir_shared_end = ir_heap_end;
  .own (NOLOAD) : ALIGN(8) { *(.bss.ir_own) . = ALIGN(8); } :own
  . = .;
  ASSERT(. <= 0x00110000, "threads.ld: stacks and variables are over 65536 bytes; ir-cc --stack N gives each stack N")

  ir_heap_object = ir_threads - 1;
  ir_objects = ir_heap_object + (DEFINED(ir_uses_heap) ? 1 : 0);
  ir_spread = (ir_shared_end - ir_shared + 55) / 56;
  ir_choice = ir_objects + ir_spread;
  ir_all_objects = ir_choice + (DEFINED(ir_uses_buffer) ? 1 : 0);
  ASSERT(ir_all_objects <= 64, "threads.ld: shared variables, the heap and the window of main's stack are over what 64 objects hold; ir-cc --heap N and --window N make those smaller")
  ASSERT(ir_threads >= 1 && ir_threads <= 16, "threads.ld: a guest has 1 to 16 threads")

  .ir.table 0x00200000 : {
    LONG(2) LONG(ir_threads)
    FILL(0x00000100) . += ir_threads * 4;
    FILL(0x00000000) . += ir_all_objects * 64;
  } :table

  .init_array : { KEEP(*(.preinit_array .preinit_array.* .init_array .init_array.* .fini_array .fini_array.* .ctors .ctors.* .dtors .dtors.*)) }
  ASSERT(SIZEOF(.init_array) == 0, "threads.ld: a constructor or destructor: no thread would run it")
}
