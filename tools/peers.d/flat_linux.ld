/* A flat program of Linux. */
OUTPUT_FORMAT("elf32-i386")
ENTRY(_start)
SECTIONS
{
  .image 0x8048000 : {
    image_start = .;
    INCLUDE image.ld
  }
  .bss : { *suite*.o(.bss* COMMON) *(.bss* COMMON) . = ALIGN(16); image_end = .; }
  /DISCARD/ : { *(.note*) *(.comment) *(.eh_frame*) }
}
