/* qemu's board 'virt': 128 MiB of memory from 'base' on, which the linker is told. Nothing is behind lent_end: a step there faults. */
ENTRY(start)
SECTIONS
{
    . = base;
    .text : { KEEP(*(.start)) *(.text*) }
    .rodata : { *(.rodata*) *(.srodata*) }
    .data : { *(.data*) *(.sdata*) }
    .noinit : { *(.noinit*) }
    .bss : { *(.bss*) *(.sbss*) *(COMMON) }
    . = ALIGN(4096);
    . += 2M;
    stack_end = .;
    lent_start = base + 64M;
    lent_end = base + 128M;
}
