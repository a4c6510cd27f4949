/*
 * kept.c - an hour log that loses nothing when power fails: see kept.h.
 *
 * Every step below leaves what a power-up can go on from.  What is volatile is
 * written in the order that stands here.  (Where memory is behind a cache, write it
 * back before and after each of the two bytes, in_use and whole.)
 */
#include "kept.h"

KEPT struct kept kept;

/* ---- two copies ----------------------------------------------------------- */

static struct copy *the_log(void)
{
    return &kept.copies[kept.in_use & 1];
}

static struct copy *the_other(void)
{
    return &kept.copies[(kept.in_use & 1) ^ 1];
}

static int is_sound(const struct copy *copy)
{
    return !hourlog_is_refused(hourlog_free(copy->store, STORE_LENGTH));
}

/* Copies the log over the other copy, to be changed there.  Few bytes differ, and no
 * other is written: memory that wears out lasts longer. */
static void copy_log(void)
{
    const volatile uint8_t *const from = (const volatile uint8_t *)the_log();
    volatile uint8_t *const to = (volatile uint8_t *)the_other();
    kept.whole = 0;
    for (size_t k = 0; k < sizeof(struct copy); k++) {
        if (to[k] != from[k]) {
            to[k] = from[k];
        }
    }
}

/* Makes the other copy the same as the log. */
static void refresh(void)
{
    copy_log();
    kept.whole = 1;
}

/* That the other copy is sound is not enough: a change that was cut off can leave
 * bytes that are sound and hold neither the log nor what was to become of it. */
int find_log(void)
{
    if (is_sound(the_log())) {
        return 1;
    }
    if (kept.whole != 1 || !is_sound(the_other())) {
        return 0;
    }
    kept.in_use ^= 1;
    refresh();
    return 1;
}

const uint8_t *store(void)
{
    return the_log()->store;
}

/* The log is looked at before, lest damage be copied over the last good one: that
 * takes about as long as the change.  Where there is none, it is the damaged log
 * itself, for the change will be refused 10; the other may be sound, and half a
 * change. */
uint8_t *copy_of_store(void)
{
    if (!find_log()) {
        return the_log()->store;
    }
    copy_log();
    return the_other()->store;
}

/* The one byte makes the changed copy the log. */
int64_t changed(int64_t answer)
{
    if (hourlog_refusal(answer) == HOURLOG_REFUSED_UNSOUND) {
        return answer;
    }
    if (!hourlog_is_refused(answer)) {
        kept.in_use ^= 1;
    }
    refresh();
    return answer;
}

/* ---- two damaged copies ------------------------------------------------------ */

/* Whether a repair will not be refused 18.  It is asked here, for the repair is on a
 * copy, and to make that costs the other one. */
static int can_be_repaired(const struct copy *copy)
{
    const uint8_t *const header = copy->store;
    return header[0] == HOURLOG_STORE_EDITION && header[1] == 0 && header[10] == 0 &&
           header[11] == 0 && hourlog_pages(header) == PAGES &&
           hourlog_cells(header) == CELLS &&
           hourlog_hours(header) <= PAGES * HOURLOG_HOURS_A_PAGE;
}

/* Repairs a copy, and notes in it the pages that are lost. */
static int64_t repair(struct copy *copy)
{
    static uint32_t listed[PAGES];
    const int64_t answer = hourlog_repair(copy->store, STORE_LENGTH, listed, PAGES);
    for (int64_t k = 0; k < answer; k++) {
        volatile uint8_t *const eight = &copy->lost[listed[k] / 8];
        *eight = (uint8_t)(*eight | 1u << listed[k] % 8);
    }
    return answer;
}

/* Both copies were tried, and neither is the log.  The writes in their order, and what
 * a cut behind each leaves:
 *   in_use, if the other alone can be repaired and is whole: two copies as before, of
 *       one log, and no sound one;
 *   whole, which becomes 0; the copy; its repair; the pages that it lost: the damaged
 *       log, of which no byte is written, and beside it one that is not whole.  So
 *       the next power-up finds no log, and does the same repair, to the same end;
 *   in_use: the repaired log, with its lost pages, and the other not whole;
 *   the copy, and whole: two repaired logs.  The next power-up does it too. */
int64_t repair_log(void)
{
    if (find_log()) {
        return 0;
    }
    if (kept.whole == 1 && !can_be_repaired(the_log()) && can_be_repaired(the_other())) {
        kept.in_use ^= 1;
    }
    if (!can_be_repaired(the_log())) {
        return -HOURLOG_REFUSED_REPAIR;
    }
    copy_log();
    return changed(repair(the_other()));
}

int page_is_lost(uint32_t page)
{
    return the_log()->lost[page / 8] >> page % 8 & 1;
}

/* No page of a copy is lost any more, or none yet. */
static void none_lost(struct copy *copy)
{
    for (size_t k = 0; k < sizeof copy->lost; k++) {
        copy->lost[k] = 0;
    }
}

int64_t told(void)
{
    if (!find_log()) {
        return -HOURLOG_REFUSED_UNSOUND;
    }
    copy_log();
    none_lost(the_other());
    return changed(0);
}

/* ---- coins that wait -------------------------------------------------------- */

/* The hour that runs: of the two the later one. */
static struct waiting *running(void)
{
    return &kept.waiting[kept.waiting[1].append > kept.waiting[0].append];
}

static struct waiting *before_it(void)
{
    return &kept.waiting[kept.waiting[1].append <= kept.waiting[0].append];
}

void coins_fell(uint32_t n)
{
    struct waiting *const hour = running();
    hour->coins = hour->coins + n;
}

/* How many hours are over and not logged.  None where the log is ahead of the clock,
 * which was put back: coins then come into the next hour that is logged. */
static uint32_t hours_behind(uint32_t clock)
{
    const uint32_t logged_to = the_log()->hour_0 + hourlog_hours(store());
    return clock > logged_to ? clock - logged_to : 0;
}

/* Takes the place of coins that are logged.  Until the number is written, the last
 * of all, they are nobody's, and the hour before goes on.  If no coins are logged
 * yet, since appends were refused, it goes on too. */
static void begin(uint32_t clock)
{
    const uint32_t next = the_log()->next;
    const uint32_t append = next + hours_behind(clock);
    struct waiting *const place = before_it();
    if (append > running()->append && place->append < next) {
        place->coins = 0;
        place->append = append;
    }
}

int begin_hour(uint32_t clock)
{
    if (!find_log()) {
        return 0;
    }
    begin(clock);
    return 1;
}

/* The coins that wait for an append; 0 if the board slept through its hour. */
static uint32_t coins_for(uint32_t append)
{
    for (int k = 0; k < 2; k++) {
        if (kept.waiting[k].append == append) {
            return kept.waiting[k].coins;
        }
    }
    return 0;
}

/* Appends the next hour to a copy that is not the log yet, which becomes so. */
static int64_t append_next(uint8_t *copy)
{
    const uint32_t next = the_log()->next;
    const int64_t answer = hourlog_append(copy, STORE_LENGTH, coins_for(next));
    if (!hourlog_is_refused(answer)) {
        the_other()->next = next + 1;
    }
    return changed(answer);
}

int64_t catch_up(uint32_t clock)
{
    int64_t answer = find_log() ? 0 : -HOURLOG_REFUSED_UNSOUND;
    while (!hourlog_is_refused(answer)) {
        begin(clock);
        if (hours_behind(clock) == 0) {
            return 0;
        }
        answer = append_next(copy_of_store());
    }
    return answer;
}

/* ---- power-up, and a new log ------------------------------------------------ */

int power_up(void)
{
    if (!find_log()) {
        return 0;
    }
    refresh();
    return 1;
}

/* Makes a store of no hours in the other copy. */
static int64_t fresh(uint8_t *copy, uint32_t hour_0)
{
    the_other()->hour_0 = hour_0;
    none_lost(the_other());
    return hourlog_fresh(copy, STORE_LENGTH, PAGES, CELLS);
}

void new_log(uint32_t clock)
{
    struct copy *const copy = the_other();
    kept.whole = 0;
    for (int k = 0; k < 2; k++) {
        kept.waiting[k].append = 0;
        kept.waiting[k].coins = 0;
    }
    copy->next = 1;
    (void)changed(fresh(copy->store, clock - clock % 24));
}

int64_t start_over(uint32_t hours_of_day)
{
    if (!find_log()) {
        return -HOURLOG_REFUSED_UNSOUND;
    }
    uint8_t *const copy = copy_of_store();
    const uint32_t hour = the_log()->hour_0 + hourlog_hours(store());
    int64_t answer = fresh(copy, hour - hours_of_day);
    while (!hourlog_is_refused(answer) && hourlog_hours(copy) < hours_of_day) {
        answer = hourlog_append(copy, STORE_LENGTH, 0);
    }
    return hourlog_is_refused(answer) ? changed(answer) : append_next(copy);
}
