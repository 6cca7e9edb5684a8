/* A flat client of 32 bits, with a stack of 128 KB. A program is loaded at segment 0074h, so that its image begins at linear address 740h. */
OUTPUT_FORMAT("elf32-i386")
ENTRY(start)
size = 32 + initialized_end - image_start;
SECTIONS
{
  .header 0 : AT(0) {
    SHORT(0x5A4D) SHORT(size % 512) SHORT((size + 511) / 512) SHORT(0) SHORT(2)
    SHORT((stack_top - initialized_end) / 16 + 0x401) SHORT(0xFFFF)
    SHORT((stack_top - 0x8740) / 16) SHORT(0x8000) SHORT(0) SHORT(start - 0x740) SHORT(0) SHORT(0x1C) SHORT(0) LONG(0)
  }
  .image 0x740 : AT(32) {
    image_start = .;
    KEEP(*(.start))
    . = ALIGN(64);
    INCLUDE image.ld
    initialized_end = .;
  }
  .bss (NOLOAD) : { *suite*.o(.bss* COMMON) *(.bss* COMMON) . = ALIGN(16); image_end = .; . += 0x20000; stack_top = .; }
  after_stack = ABSOLUTE(stack_top) / 16;
  /DISCARD/ : { *(.note*) *(.comment) *(.eh_frame*) }
}
