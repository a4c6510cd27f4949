/* ARM's MPS2 board as qemu has it, with a Cortex-M3 (mps2-an385) or a Cortex-M4 (mps2-an386). */
MEMORY { FLASH (rx) : ORIGIN = 0x00000000, LENGTH = 4M  RAM (rwx) : ORIGIN = 0x20000000, LENGTH = 4M }
INCLUDE cortex-m.ld
