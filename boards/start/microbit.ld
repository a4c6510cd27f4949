/* The BBC micro:bit as qemu has it: a Cortex-M0 with 16 KiB of memory. */
MEMORY { FLASH (rx) : ORIGIN = 0x00000000, LENGTH = 256K  RAM (rwx) : ORIGIN = 0x20000000, LENGTH = 16K }
INCLUDE cortex-m.ld
