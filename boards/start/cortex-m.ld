/* Memory of the emulated Cortex-M boards: code at 0, data at 0x20000000. MEMORY comes from the file of the board that is linked. */
ENTRY(reset)
SECTIONS
{
    .text : { KEEP(*(.vectors)) *(.text*) *(.rodata*) KEEP(*(.init)) KEEP(*(.fini)) . = ALIGN(8); } >FLASH
    .ARM.exidx : { __exidx_start = .; *(.ARM.exidx*) __exidx_end = .; } >FLASH
    .data : ALIGN(8)
    {
        data_start = .;
        *(.data*)
        __init_array_start = .; KEEP(*(.init_array*)) __init_array_end = .;
        __fini_array_start = .; KEEP(*(.fini_array*)) __fini_array_end = .;
        . = ALIGN(8);
        data_end = .;
    } >RAM AT>FLASH
    data_kept = LOADADDR(.data);
    .noinit (NOLOAD) : ALIGN(8) { *(.noinit*) } >RAM
    .bss (NOLOAD) : ALIGN(8) { __bss_start__ = .; *(.bss*) *(COMMON) . = ALIGN(8); __bss_end__ = .; } >RAM
    __preinit_array_start = 0; __preinit_array_end = 0;
    end = .;
    __end__ = .;
    __stack = ORIGIN(RAM) + LENGTH(RAM);
}
