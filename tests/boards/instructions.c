/*
 * instructions.c - how many instructions a call takes on a board, counted by
 * the emulator: with qemu's option -icount each instruction moves the board's
 * clock on by the same step.  What a step is, a loop of known length says.
 *
 * The store is bench/'s of 16 pages: 28 cells, all pages but the last filled,
 * seven in ten with two cells and the others with one.
 */
#include "hourlog.h"

#include <stdio.h>
#include <stdlib.h>

#define PAGES 16u
#define CELLS 28u
#define APPENDS 2u
#define TURNS 100000u

static uint8_t store[HOURLOG_STORE_LENGTH(PAGES, CELLS)];
static uint8_t image[HOURLOG_IMAGE_LENGTH_MAX(PAGES * HOURLOG_HOURS_A_PAGE, 6)];

/* ---- the board's clock, and 2 * TURNS instructions ------------------------ */

#if defined(__arm__)
#define SYSTICK ((volatile uint32_t *)0xE000E010)
static void clock_on(void)
{
    SYSTICK[1] = 0xFFFFFF;
    SYSTICK[2] = 0;
    SYSTICK[0] = 5; /* on, at the processor's clock */
}
static uint32_t clock_now(void) { return 0xFFFFFF - SYSTICK[2]; }
#define CLOCK_MASK 0xFFFFFFu
static void turn(uint32_t turns)
{
    __asm__ volatile(".syntax unified\n.balign 4\n1: subs %0, %0, #1\n bne 1b" : "+l"(turns) : : "cc");
}
#elif defined(__riscv)
static void clock_on(void) {}
static uint32_t clock_now(void)
{
    uint32_t now;
    __asm__ volatile("csrr %0, minstret" : "=r"(now));
    return now;
}
#define CLOCK_MASK 0xFFFFFFFFu
static void turn(uint32_t turns)
{
    __asm__ volatile("1: addi %0, %0, -1\n bnez %0, 1b" : "+r"(turns));
}
#else
static void clock_on(void) {}
static uint32_t clock_now(void)
{
    uint64_t now;
    __asm__ volatile("isb\n mrs %0, cntvct_el0" : "=r"(now));
    return (uint32_t)now;
}
#define CLOCK_MASK 0xFFFFFFFFu
static void turn(uint32_t turns)
{
    __asm__ volatile("1: subs %w0, %w0, #1\n b.ne 1b" : "+r"(turns) : : "cc");
}
#endif

static uint32_t since(uint32_t then)
{
    return (clock_now() - then) & CLOCK_MASK;
}

/* Ticks of so many turns. */
static uint32_t ticks_of(uint32_t turns)
{
    uint32_t then = clock_now();
    turn(turns);
    return since(then);
}

static uint32_t ticks; /* of 2 * TURNS instructions */

static unsigned long instructions(uint32_t measured)
{
    return (unsigned long)((uint64_t)measured * 2 * TURNS / ticks);
}

/* ---- the store, as bench/src/filled.rs fills it ---------------------------- */

static uint64_t state = 13;

static uint32_t below(uint32_t n)
{
    state ^= state >> 12;
    state ^= state << 25;
    state ^= state >> 27;
    return (uint32_t)(((state * 0x2545F4914F6CDD1Du >> 32) * n) >> 32);
}

static int64_t must(int64_t answer)
{
    if (hourlog_is_refused(answer)) {
        printf("refused %d\n", hourlog_refusal(answer));
        exit(EXIT_FAILURE);
    }
    return answer;
}

static void fill(void)
{
    must(hourlog_fresh(store, sizeof store, PAGES, CELLS));
    for (uint32_t page = 0; page < PAGES - 1; page++) {
        for (uint32_t k = 0; k < HOURLOG_HOURS_A_PAGE; k++) {
            must(hourlog_append(store, sizeof store, below(page % 10 < 7 ? 6 : 3)));
        }
    }
}

/* ---- what is measured ------------------------------------------------------- */

static int64_t free_cells(uint32_t k) { (void)k; return hourlog_free(store, sizeof store); }
static int64_t count(uint32_t k) { return hourlog_count(store, sizeof store, 13 * k); }
static int64_t append(uint32_t k) { return hourlog_append(store, sizeof store, 1 + k); }
static int64_t freeze(uint32_t k) { (void)k; return hourlog_freeze(store, sizeof store, 6, image, sizeof image); }

/* The mean of n calls. */
static unsigned long mean(int64_t (*call)(uint32_t), uint32_t n)
{
    uint64_t all = 0;
    for (uint32_t k = 0; k < n; k++) {
        uint32_t then = clock_now();
        must(call(k));
        all += since(then);
    }
    return instructions((uint32_t)(all / n));
}

int main(int argc, char **argv)
{
    (void)argc, (void)argv;
    clock_on();
    ticks = ticks_of(TURNS);
    uint32_t half = ticks_of(TURNS / 2);
    if (ticks == 0 || instructions(half) < TURNS - TURNS / 100 || instructions(half) > TURNS + TURNS / 100) {
        puts("the clock does not count instructions: run it with -icount");
        return EXIT_FAILURE;
    }
    fill();
    printf("instructions: free %lu", mean(free_cells, 8));
    printf(", count %lu", mean(count, 64));
    printf(", append %lu", mean(append, APPENDS));
    printf(", freeze %lu\n", mean(freeze, 1));
    return EXIT_SUCCESS;
}
