/*
 * cortex-m.c - where an emulated Cortex-M starts: the words that it takes its
 * stack and its first instruction from, and what it does at a fault.
 */
#include <stdint.h>

extern uint8_t data_start[], data_end[], data_kept[], __stack[];
extern void _start(void); /* newlib's */

/* A Cortex-M0+ faults at an address that is not a multiple of what it loads or
 * stores; a larger one is told to where it runs the smaller one's code. */
static void as_strict_as_m0plus(void)
{
#ifdef __ARM_ARCH_6M__
    *(volatile uint32_t *)0xE000ED14 |= 1u << 3; /* CCR.UNALIGN_TRP */
#endif
}

void reset(void)
{
    as_strict_as_m0plus();
    for (uint32_t k = 0; data_start + k < data_end; k++) {
        ((volatile uint8_t *)data_start)[k] = data_kept[k];
    }
    _start();
}

/* Says so through the debugger's door, and ends with a status that is not 0. */
static void fault(void)
{
    __asm__ volatile("mov r0, #4\n mov r1, %0\n bkpt 0xAB\n" /* SYS_WRITE0 */
                     "mov r0, #0x18\n ldr r1, =0x20023\n bkpt 0xAB\n" /* SYS_EXIT, run-time error */
                     : : "r"("the board faulted\n") : "r0", "r1", "memory");
    for (;;) {
    }
}

__attribute__((section(".vectors"), used)) static void *const vectors[] = {
    __stack, (void *)reset, (void *)fault, (void *)fault, (void *)fault, (void *)fault, (void *)fault
};
