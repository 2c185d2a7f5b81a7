/* The addresses of a program's parts in the memory of a handler: code and constants from 0x10000 on, the bytes of --data at
   0x20000000, and the state of the process at 0x40000000. Each part is a segment of the file. */
ENTRY(start)
EXTERN(start forward finish)

PHDRS {
  code PT_LOAD FLAGS(5);
  constants PT_LOAD FLAGS(4);
  state PT_LOAD FLAGS(6);
}

SECTIONS {
  ASSERT(DEFINED(start), "twarp: the model has no handler start")
  ASSERT(DEFINED(forward), "twarp: the model has no handler forward")
  ASSERT(DEFINED(finish), "twarp: the model has no handler finish")

  data = 0x20000000;

  . = 0x10000;
  .text : { KEEP(*(.text)) *(.text.*) } :code
  ASSERT(SIZEOF(.text) <= 0x100000, "twarp: more than 1048576 bytes of code")

  .init_array : { KEEP(*(.preinit_array .init_array .init_array.* .ctors .ctors.*)) } :code
  ASSERT(SIZEOF(.init_array) == 0, "twarp: a constructor, which nothing would call; make the first state in start")

  . = ALIGN(16);
  .rodata : { KEEP(*(.rodata .srodata .rodata.processes)) *(.rodata.* .srodata.* .data.rel.ro .data.rel.ro.*) } :constants
  ASSERT(. <= 0x1010000, "twarp: more than 16777216 bytes of code and constants")

  . = 0x40000000;
  .data : { *(.data .data.* .sdata .sdata.*) } :state
  .bss : { *(.bss .bss.* .sbss .sbss.* COMMON) } :state
  ASSERT(. <= 0x40001000, "twarp: more than 4096 bytes of state (.data and .bss); make what never changes const")

  .symtab 0 : { *(.symtab) }
  .strtab 0 : { *(.strtab) }
  .shstrtab 0 : { *(.shstrtab) }
  .debug_info 0 : { *(.debug_info) }
  .debug_abbrev 0 : { *(.debug_abbrev) }
  .debug_line 0 : { *(.debug_line) }
  .debug_line_str 0 : { *(.debug_line_str) }
  .debug_str 0 : { *(.debug_str) }
  .debug_str_offsets 0 : { *(.debug_str_offsets) }
  .debug_addr 0 : { *(.debug_addr) }
  .debug_aranges 0 : { *(.debug_aranges) }
  .debug_loclists 0 : { *(.debug_loclists) }
  .debug_rnglists 0 : { *(.debug_rnglists) }
  .debug_frame 0 : { *(.debug_frame) }
  .debug_loc 0 : { *(.debug_loc) }
  .debug_ranges 0 : { *(.debug_ranges) }
  /DISCARD/ : { *(.rela.* .comment .note .note.* .riscv.attributes .eh_frame .eh_frame_hdr .llvm_addrsig .gnu.build.attributes*) }
}
