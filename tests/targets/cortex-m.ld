/* The memory of qemu's board mps2-an386: code and data each in 4 MB. qemu puts the program there. */
MEMORY {
  CODE : ORIGIN = 0x00000000, LENGTH = 4M
  DATA : ORIGIN = 0x20000000, LENGTH = 4M
}
SECTIONS {
  .text : { KEEP(*(.vectors)) *(.text .text.* .rodata .rodata.*) } >CODE
  .ARM.exidx : { *(.ARM.exidx .ARM.exidx.*) } >CODE
  .data : { *(.data .data.*) } >DATA
  .bss (NOLOAD) : { *(.bss .bss.* COMMON) } >DATA
}
