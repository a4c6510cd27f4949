/*
 * power.c - the log of examples/kept.c on a Cortex-M3 whose power fails: coins fall
 * by an interrupt, hours pass, staff set, insert and strike, copies are damaged and
 * repaired.
 *
 * Power fails at the instruction that the host chose, by a timer whose interrupt
 * nothing here holds off.  All memory that survives then goes to the host, and comes
 * back as it is to be at the next power-up, which is a reset of the whole board.
 * Beside kept.c's memory there is the WORLD, which the log's functions do not know:
 * what the host wants, and a trace of what happened.
 */
#include "../../examples/kept.h"

#define EVENTS 400u

enum { COINS, HOUR, SET, INSERT, STRIKE, OVER, FLIP, RUIN, REPAIR, TOLD, LOST, REFUSED };

static struct {
    uint32_t cut_after; /* in ticks; 0 at the very first start, before the host has spoken */
    uint32_t seed;
    volatile uint32_t clock;
    uint32_t is_new; /* no log is expected */
    /* of the coins, and of all else, how many are done: one more may have begun */
    volatile uint32_t coins_done, others_done;
    volatile uint32_t events;
    struct {
        volatile uint32_t what, a, b;
    } event[EVENTS];
} world __attribute__((section(".noinit")));

/* ---- the host, by the debugger's door (semihosting) ------------------------- */

static uint32_t knock(uint32_t what, const void *with)
{
    register uint32_t r0 __asm__("r0") = what;
    register const void *r1 __asm__("r1") = with;
    __asm__ volatile("bkpt 0xAB" : "+r"(r0) : "r"(r1) : "memory");
    return r0;
}

/* Opens a file, writes or reads all bytes, and closes it.  What is not done yet is
 * what the door answers. */
static void hand(const char *name, uint32_t name_length, uint32_t mode, uint32_t how,
                 void *bytes, uint32_t length)
{
    const uint32_t open[3] = {(uint32_t)name, mode, name_length};
    uint32_t handle = knock(0x01, open);
    for (uint32_t left = length; left > 0;) {
        const uint32_t block[3] = {handle, (uint32_t)bytes + length - left, left};
        left = knock(how, block);
    }
    knock(0x02, &handle);
}

static void give(void *bytes, uint32_t length) { hand("/dev/stdout", 11, 5, 0x05, bytes, length); }
static void take(void *bytes, uint32_t length) { hand("/dev/stdin", 10, 1, 0x06, bytes, length); }

static void cut(void)
{
    uint32_t lengths[2] = {sizeof kept, sizeof world};
    give(lengths, sizeof lengths);
    give(&kept, sizeof kept);
    give(&world, sizeof world);
    take(&kept, sizeof kept);
    take(&world, sizeof world);
    *(volatile uint32_t *)0xE000ED0C = 0x05FA0004; /* AIRCR: reset the board */
    for (;;) {
    }
}

/* ---- the trace --------------------------------------------------------------- */

/* Holds the coin interrupt off, and no other; what it was before. */
static uint32_t hold_coins(uint32_t priority)
{
    uint32_t before;
    __asm__ volatile("mrs %0, basepri\n msr basepri, %1\n isb" : "=&r"(before) : "r"(priority) : "memory");
    return before;
}

static void event(uint32_t what, uint32_t a, uint32_t b)
{
    const uint32_t before = hold_coins(0x80);
    const uint32_t k = world.events;
    world.event[k].what = what;
    world.event[k].a = a;
    world.event[k].b = b;
    world.events = k + 1;
    hold_coins(before);
}

static void fault(void)
{
    event(REFUSED, 0, 0);
    cut();
}

static void done(int64_t answer)
{
    if (hourlog_is_refused(answer)) {
        event(REFUSED, (uint32_t)hourlog_refusal(answer), 0);
        cut();
    }
    world.others_done = world.others_done + 1;
}

static uint32_t below(uint32_t *state, uint32_t n)
{
    *state ^= *state << 13;
    *state ^= *state >> 17;
    *state ^= *state << 5;
    return (*state >> 4) % n;
}

/* ---- coins -------------------------------------------------------------------- */

#define TIMER ((volatile uint32_t *)0x40000000) /* control, value, reload, interrupt */
static uint32_t coin_state;

static void some_fall(void)
{
    if (world.events < EVENTS - 12) {
        const uint32_t n = below(&coin_state, 8) ? 1 : below(&coin_state, 300);
        event(COINS, n, 0);
        coins_fell(n);
        world.coins_done = world.coins_done + 1;
    }
}

static void coin_interrupt(void)
{
    TIMER[3] = 1;
    TIMER[2] = 500 + below(&coin_state, 40000);
    some_fall();
}

static void let_coins_in(void)
{
    *(volatile uint8_t *)0xE000E408 = 0x80;       /* its priority: below that of the cut */
    *(volatile uint32_t *)0xE000E100 = 1u << 8;   /* on */
    TIMER[2] = 1000;
    TIMER[1] = 1000;
    TIMER[0] = 1 | 1 << 3;
}

/* ---- hours and staff ---------------------------------------------------------- */

static uint32_t state;

/* Tells the operator which pages are lost.  Every other time nobody is there. */
static void tell(void)
{
    uint32_t pages = 0;
    for (uint32_t page = 0; page < PAGES; page++) {
        pages |= (uint32_t)page_is_lost(page) << page;
    }
    if (pages != 0 && below(&state, 2)) {
        event(TOLD, pages, hourlog_hours(store()));
        done(told());
    }
}

/* A board without a log must not change one. */
static int64_t change_nothing(void)
{
    return changed(hourlog_set(copy_of_store(), STORE_LENGTH, 0, 1));
}

/* Makes a log of what is left of one; where nothing is, a new board makes a new log. */
static void repair(void)
{
    event(REPAIR, 0, 0);
    int64_t answer = repair_log();
    if (hourlog_is_refused(answer) && !world.is_new) {
        event(LOST, (uint32_t)hourlog_refusal(answer), (uint32_t)hourlog_refusal(change_nothing()));
        cut();
    } else if (hourlog_is_refused(answer)) {
        new_log(world.clock);
        answer = 0;
    }
    done(answer);
    tell();
}

/* Logs the hours that are over; where the log is full, in a new one. */
static void log_hours(void)
{
    int64_t answer = catch_up(world.clock);
    while (hourlog_refusal(answer) == HOURLOG_REFUSED_FULL) {
        done(0);
        const uint32_t hours_of_day = below(&state, 24);
        event(OVER, hours_of_day, 0);
        done(start_over(hours_of_day));
        event(HOUR, world.clock, 0);
        answer = catch_up(world.clock);
    }
    done(answer);
}

/* Stands before the library's append: the hour's coins are taken already. */
static int fall_within_appends;
int64_t __real_hourlog_append(uint8_t *store, hourlog_size len, uint32_t count);
int64_t __wrap_hourlog_append(uint8_t *store, hourlog_size len, uint32_t count)
{
    if (fall_within_appends) {
        some_fall();
    }
    return __real_hourlog_append(store, len, count);
}

/* A full hour begins, or the log is to be brought up to the clock again.  Every other
 * time begin_hour is left to catch_up.  Then coins fall within appends alone: others
 * would be those of either hour. */
static void up_to_the_clock(uint32_t more)
{
    const uint32_t before = hold_coins(0x80);
    world.clock = world.clock + more;
    event(HOUR, world.clock, 0);
    fall_within_appends = (int)below(&state, 2);
    if (!fall_within_appends) {
        (void)begin_hour(world.clock);
        hold_coins(before);
    }
    log_hours();
    fall_within_appends = 0;
    hold_coins(before);
}

static void switch_on(void)
{
    if (power_up()) {
        tell();
    } else {
        repair();
    }
    event(HOUR, world.clock, 0);
    log_hours();
}

static uint32_t count(void)
{
    const uint32_t size = below(&state, 4);
    return below(&state, size == 0 ? 3 : size == 1 ? 100000 : 200);
}

static void staff(void)
{
    const uint32_t hours = hourlog_hours(store());
    const uint32_t hour = below(&state, hours + 1), coins = count();
    const uint32_t what = below(&state, 3);
    if (what == 0 && hour < hours) {
        event(SET, hour, coins);
        done(changed(hourlog_set(copy_of_store(), STORE_LENGTH, hour, coins)));
    } else if (what == 1 && hours < PAGES * HOURLOG_HOURS_A_PAGE) {
        event(INSERT, hour, coins);
        done(changed(hourlog_insert(copy_of_store(), STORE_LENGTH, hour, coins)));
    } else if (what == 2 && hour < hours) {
        event(STRIKE, hour, 0);
        done(changed(hourlog_strike(copy_of_store(), STORE_LENGTH, hour)));
    }
    up_to_the_clock(0);
}

/* A bit of a copy flips while the board runs, unless one has already, which nothing
 * has mended yet: two copies are good for one fault. */
static void flip(uint32_t copy)
{
    uint8_t *const free_cells = &kept.copies[copy].store[8];
    if (*free_cells == kept.copies[copy ^ 1].store[8]) {
        event(FLIP, copy, 0);
        *free_cells ^= 1;
        done(0);
    }
}

/* A bit of a page's first cell flips in both copies, if they are the same and whole:
 * the page is lost.  No call may go on with either before it is repaired. */
static void ruin(uint32_t page)
{
    for (size_t k = 0; k < sizeof kept.copies[0]; k++) {
        if (((uint8_t *)&kept.copies[0])[k] != ((uint8_t *)&kept.copies[1])[k]) {
            return;
        }
    }
    event(RUIN, page, 0);
    for (int k = 0; k < 2; k++) {
        ((volatile uint8_t *)kept.copies[k].store)[21 + 6 * page] ^= 0x80;
    }
    done(0);
    if (begin_hour(world.clock + 1) || hourlog_refusal(catch_up(world.clock)) != HOURLOG_REFUSED_UNSOUND ||
        hourlog_refusal(change_nothing()) != HOURLOG_REFUSED_UNSOUND) {
        fault();
    }
    repair();
}

static void live(void)
{
    switch_on();
    let_coins_in();
    while (world.events < EVENTS - 16) {
        for (volatile uint32_t turns = below(&state, 5000); turns > 0; turns = turns - 1) {
        }
        if (below(&state, 8) == 0) {
            flip(below(&state, 2));
        } else if (below(&state, 32) == 0) {
            ruin(below(&state, PAGES));
        }
        if (below(&state, 2)) {
            up_to_the_clock(1);
        } else {
            staff();
        }
    }
    cut();
}

/* ---- power-up ------------------------------------------------------------------ */

extern uint32_t data_start[], data_end[], data_kept[], __bss_start__[], __bss_end__[], __stack[];

void reset(void)
{
    if (world.cut_after == 0) {
        cut();
    }
    volatile uint32_t *const systick = (volatile uint32_t *)0xE000E010;
    systick[1] = world.cut_after;
    systick[2] = 0;
    systick[0] = 7; /* on, with its interrupt, at the processor's clock */
    for (uint32_t k = 0; data_start + k < data_end; k++) {
        ((volatile uint32_t *)data_start)[k] = data_kept[k];
    }
    for (volatile uint32_t *at = __bss_start__; at < __bss_end__; at++) {
        *at = 0;
    }
    state = world.seed;
    coin_state = ~world.seed;
    live();
}

__attribute__((section(".vectors"), used)) static void *const vectors[16 + 9] = {
    __stack, (void *)reset, (void *)fault, (void *)fault, (void *)fault, (void *)fault, (void *)fault, 0, 0, 0, 0, 0, 0, 0, 0,
    (void *)cut, 0, 0, 0, 0, 0, 0, 0, 0, (void *)coin_interrupt,
};
