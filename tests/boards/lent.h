/*
 * lent.h - a MiB of memory from which buffers are lent, lent_from to lent_to.
 * On a board a step behind its end faults, on a Cortex-M also one before its
 * start.  (On x86-64, where this only says what is to come out, it is an array;
 * the comparison with the second implementation has pages as guards there.)
 */
#ifndef LENT_H
#define LENT_H

#include <stddef.h>
#include <stdint.h>

#define LENT 0x100000u

#if defined(__arm__)

#define lent_from ((uint8_t *)0x21100000)

/* Region `number` of the memory protection unit: a MiB that nobody may touch. */
static void forbid(uint32_t number, uint32_t from)
{
    *(volatile uint32_t *)0xE000ED9C = from | 1u << 4 | number;
    *(volatile uint32_t *)0xE000EDA0 = 1u << 28 | 19u << 1 | 1u;
}

static void guard(void)
{
    forbid(0, 0x21000000);
    forbid(1, 0x21200000);
    *(volatile uint32_t *)0xE000ED94 = 5; /* on; other memory as without it */
    __asm__ volatile("dsb\n isb");
}

#elif defined(__wasm__)

/* The end of its memory; with 4 GiB of it, that of all addresses. */
#define lent_from ((uint8_t *)(__builtin_wasm_memory_size(0) * 65536u - LENT))
static void guard(void) {}

#elif defined(__riscv) || (defined(__aarch64__) && !defined(__linux__))

extern uint8_t lent_end[];
#define lent_from (lent_end - LENT)
static void guard(void) {}

#else

static uint32_t lent_words[LENT / 4];
#define lent_from ((uint8_t *)lent_words)
static void guard(void) {}

#endif

#define lent_to (lent_from + LENT)

#endif
