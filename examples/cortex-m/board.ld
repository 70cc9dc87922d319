/* The memory of qemu's mps2-an385. On a board of your own, give the addresses and lengths of its flash and its RAM. The
 * slot is the part of the flash that holds the image and its signature; an update writes the slot, never the loader. */
MEMORY {
  flash (rx) : ORIGIN = 0x00000000, LENGTH = 256K
  slot (r) : ORIGIN = 0x00040000, LENGTH = 3M
  ram (rwx) : ORIGIN = 0x20000000, LENGTH = 16K
}

ENTRY(reset)

SECTIONS {
  .text : {
    KEEP(*(.vectors))
    *(.text .text.*)
    *(.rodata .rodata.*)
    . = ALIGN(8);
  } > flash
  .ARM.exidx : { *(.ARM.exidx .ARM.exidx.*) } > flash
  .data : {
    data_begin = .;
    *(.data .data.*)
    . = ALIGN(8);
    data_end = .;
  } > ram AT > flash
  data_source = LOADADDR(.data);
  .bss : {
    bss_begin = .;
    *(.bss .bss.* COMMON)
    . = ALIGN(8);
    bss_end = .;
  } > ram
  .slot : { KEEP(*(.slot)) } > slot
  slot_begin = ORIGIN(slot);
  slot_length = LENGTH(slot);
  stack_end = ORIGIN(ram) + LENGTH(ram);
}
