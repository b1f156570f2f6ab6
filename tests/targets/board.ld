/* A Cortex-M0 as qemu's microbit has it: 256 KB of flash, 16 KB of memory, the stack at its top. */
MEMORY { flash (rx) : ORIGIN = 0, LENGTH = 256K   memory (rwx) : ORIGIN = 0x20000000, LENGTH = 16K }
SECTIONS {
  .text : { KEEP(*(.vectors)) *(.text*) *(.rodata*) . = ALIGN(4); } > flash
  /DISCARD/ : { *(.ARM.exidx*) *(.ARM.extab*) }
  .bss : { bss_begin = .; *(.data*) *(.bss*) *(COMMON) . = ALIGN(4); bss_end = .; } > memory
  stack_top = ORIGIN(memory) + LENGTH(memory);
}
