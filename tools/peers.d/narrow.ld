/* A client of one segment, in real mode or in protected mode of 16 bits: the image from CS:0000 on, and the stack at the segment's end. */
OUTPUT_FORMAT("elf32-i386")
ENTRY(start)
size = 32 + initialized_end - image_start;
SECTIONS
{
  .header 0 : AT(0) {
    SHORT(0x5A4D) SHORT(size % 512) SHORT((size + 511) / 512) SHORT(0) SHORT(2) SHORT(0x1400) SHORT(0xFFFF)
    SHORT(0) SHORT(0xFFF0) SHORT(0) SHORT(start) SHORT(0) SHORT(0x1C) SHORT(0) LONG(0)
  }
  .image 0 : AT(32) {
    image_start = .;
    KEEP(*(.start))
    INCLUDE image.ld
    initialized_end = .;
  }
  .bss (NOLOAD) : { *(.bss* COMMON) image_end = .; }
  /DISCARD/ : { *(.note*) *(.comment) *(.eh_frame*) }
}
ASSERT(image_end < 0xE000, "the program doesn't fit one segment with its stack")
