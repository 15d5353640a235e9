/* The RAM of the machine `virt` begins at 0x80000000. The image's text stands at 0x10000 behind its own address 0. */
OUTPUT_ARCH(riscv)
ENTRY(_start)
SECTIONS
{
  . = 0x80000000;
  .text : { *(.text) }
  .bss (NOLOAD) : { *(.bss) }
  . = 0x80410000;
  .image : { *(.image) }
}
