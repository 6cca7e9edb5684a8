/* A client of 16 bits in one segment of 64 KB: an MZ header of 32 bytes, and the image from CS:0000 on. 16 KB more are for the host. */
OUTPUT_FORMAT("binary")
ENTRY(start)
size = 32 + image_end - image_start;
SECTIONS
{
  .header 0 : AT(0) {
    SHORT(0x5A4D) SHORT(size % 512) SHORT((size + 511) / 512) SHORT(0)       /* MZ, bytes of the last page, pages, relocations */
    SHORT(2) SHORT(0x1400) SHORT(0xFFFF)                                     /* paragraphs of the header, of least and of most memory */
    SHORT(0) SHORT(0xFFF0) SHORT(0) SHORT(start) SHORT(0)                    /* SS, SP, no checksum, IP, CS */
    SHORT(0x1C) SHORT(0) LONG(0)
  }
  .image 0 : AT(32) { image_start = .; *(.start) *(.text*) *(.rodata*) *(.data*) image_end = .; }
  .bss (NOLOAD) : { *(.bss*) *(COMMON) }
  /DISCARD/ : { *(.note*) *(.comment) *(.eh_frame*) }
}
