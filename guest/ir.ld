/* Where the linker puts a guest's code, variables, threads and objects. `ir elf` reads the three parts that it makes.

     0x00010000  code and constants, at most 65,536 bytes. They can be read: a store there is a bad one, end 7.
     0x00100000  memory of 65,536 bytes, which each thread has for itself: the stack, and above it the variables.
     0x00200000  the table: the form, where each thread begins, and the objects' first words. It is no memory of a guest. A source
                 in C fills it by IR_THREADS and IR_OBJECTS, and one for GNU as by sections of its own, as in examples/c/gas.S.

   The stack has 16,384 bytes, or N by -Wl,--defsym=ir_stack=N, rounded up to a multiple of 16. It begins at ir_stack_top and grows down.
   If it grows too far, it runs into addresses below 0x00100000, which is a bad store, end 7. Register gp isn't used: no symbol says where
   it should be.

   Sections of other names are refused, --orphan-handling=error in ir.opts: a variable has a section of its own, so the linker names it.
   `. = .` stands before an assertion that has to count what is before it.

   .ir.small and .ir.large are the marks that ir.h leaves in a file for its form, and .ir.names are the names of IR_NAME. They are never
   loaded. .ir.objects.last are the words of the object of ir_choose, if it is called. */

OUTPUT_ARCH(riscv)
/* No thread begins here. A symbol that is always there keeps the linker from asking for _start. */
ENTRY(ir_stack_top)

PHDRS
{
  code PT_LOAD FLAGS(5);
  own PT_LOAD FLAGS(6);
  table PT_LOAD FLAGS(4);
}

SECTIONS
{
  /DISCARD/ : { *(.comment .note .note.* .eh_frame .eh_frame_hdr) }

  . = 0x00010000;
  .text : { *(.text .text.*) } :code
  ir_text_end_ = .;
  . = .;
  ASSERT(. == ir_text_end_, "ir.ld: a section of code that is named above: its name should begin with .text.")
  .rodata : { *(.rodata .rodata.* .srodata .srodata.*) } :code
  ir_rodata_end_ = .;
  . = .;
  ASSERT(. == ir_rodata_end_, "ir.ld: a section of constants that is named above: its name should begin with .rodata.")
  ASSERT(. <= 0x00020000, "ir.ld: code and constants are over 65536 bytes; -Os makes less code")

  . = ALIGN(0x00100000 + (DEFINED(ir_stack) ? ir_stack : 0x4000), 16);
  ir_stack_top = .;
  .ir.own : { *(.ir.own) } :own
  .data : { *(.data .sdata) *.a:*(.data.* .sdata.*) } :own
  ir_data_end_ = .;
  . = .;
  ir_bss_ = .;
  .bss : { *(.bss .sbss) *.a:*(.bss.* .sbss.* COMMON) } :own
  ir_bss_end_ = .;
  . = .;
  ASSERT(ir_bss_ == ir_data_end_ && . == ir_bss_end_, "ir.ld: each thread would have its own copy of the variables that are named above: mark each with IR_OWN if that is meant, or keep what threads share in an object; -fno-data-sections says of all variables that it is meant")
  .common : { *(COMMON) } :own
  ASSERT(SIZEOF(.common) == 0, "ir.ld: -fcommon hides which variables there are: leave it out")
  ASSERT(. <= 0x00110000, "ir.ld: stack and variables are over 65536 bytes; -Wl,--defsym=ir_stack=N gives the stack N, not 16384")

  .ir.form 0x00200000 : SUBALIGN(4) { KEEP(*(.ir.form)) LONG(SIZEOF(.ir.threads) / 4) } :table
  .ir.threads : SUBALIGN(4) { KEEP(*(.ir.threads)) } :table
  .ir.objects : SUBALIGN(4) { KEEP(*(.ir.objects)) KEEP(*(.ir.objects.last)) } :table
  PROVIDE(ir_choice_ = SIZEOF(.ir.objects) / (SIZEOF(.ir.small) > 0 ? 32 : 64) - 1);
  ASSERT(SIZEOF(.ir.objects) <= (SIZEOF(.ir.small) > 0 ? 16 * 32 : 64 * 64), "ir.ld: there are at most 16 objects, or 64 with IR_LARGE, and ir_choose takes one of them")
  ASSERT(SIZEOF(.ir.threads) > 0, "ir.ld: no IR_THREADS: it says which threads there are")

  .init_array : { KEEP(*(.preinit_array .preinit_array.* .init_array .init_array.* .ctors .ctors.*)) }
  ASSERT(SIZEOF(.init_array) == 0, "ir.ld: a constructor: no thread would run it")
  .tdata : { *(.tdata .tdata.* .tbss .tbss.*) }
  ASSERT(SIZEOF(.tdata) == 0, "ir.ld: a thread-local variable: IR_OWN makes a plain one each thread's own")
  .rela 0 : { *(.rela .rela.*) }
  .riscv.attributes 0 : { *(.riscv.attributes) }
  .debug_info 0 : { *(.debug_info .gnu.linkonce.wi.*) }
  .debug_abbrev 0 : { *(.debug_abbrev) }
  .debug_aranges 0 : { *(.debug_aranges) }
  .debug_line 0 : { *(.debug_line .debug_line.*) }
  .debug_line_str 0 : { *(.debug_line_str) }
  .debug_str 0 : { *(.debug_str) }
  .debug_str_offsets 0 : { *(.debug_str_offsets) }
  .debug_addr 0 : { *(.debug_addr) }
  .debug_loc 0 : { *(.debug_loc) }
  .debug_loclists 0 : { *(.debug_loclists) }
  .debug_ranges 0 : { *(.debug_ranges) }
  .debug_rnglists 0 : { *(.debug_rnglists) }
  .debug_frame 0 : { *(.debug_frame) }
  .debug_macro 0 : { *(.debug_macro .debug_macinfo) }
  .debug_types 0 : { *(.debug_types) }
  .debug_names 0 : { *(.debug_names .debug_pubnames .debug_pubtypes .debug_gnu_pubnames .debug_gnu_pubtypes) }
  .ir.small 0 (INFO) : { KEEP(*(.ir.small)) }
  .ir.large 0 (INFO) : { KEEP(*(.ir.large)) }
  .ir.names 0 (INFO) : { KEEP(*(.ir.names)) }
  ASSERT(SIZEOF(.ir.small) == 0 || SIZEOF(.ir.large) == 0, "ir.ld: some files define IR_LARGE 1 and others don't; -DIR_LARGE=1 defines it in all of them")
}
