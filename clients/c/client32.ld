/* A flat client of 32 bits: an MZ header of 32 bytes, and the image. A program is loaded at segment 0074h, so that with descriptors of base
   0 its code is at its linear address, from 740h on. The stack of 16 KB is after the image and its zeros; 16 KB more are for the host. */
OUTPUT_FORMAT("binary")
ENTRY(start)
size = 32 + image_end - image_start;
SECTIONS
{
  .header 0 : AT(0) {
    SHORT(0x5A4D) SHORT(size % 512) SHORT((size + 511) / 512) SHORT(0)       /* MZ, bytes of the last page, pages, relocations */
    SHORT(2) SHORT((stack_top - image_end) / 16 + 0x401) SHORT(0xFFFF)           /* paragraphs of the header, of least and of most memory */
    SHORT((stack_top - 0x4740) / 16) SHORT(0x4000) SHORT(0)                  /* SS, SP, no checksum */
    SHORT(start - 0x740) SHORT(0) SHORT(0x1C) SHORT(0) LONG(0)               /* IP, CS */
  }
  .image 0x740 : AT(32) { image_start = .; *(.start) *(.text*) *(.rodata*) *(.data*) image_end = .; }
  .bss (NOLOAD) : { *(.bss*) *(COMMON) . = ALIGN(16); . += 0x4000; stack_top = .; }
  after_stack = ABSOLUTE(stack_top) / 16;
  /DISCARD/ : { *(.note*) *(.comment) *(.eh_frame*) }
}
