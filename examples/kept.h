/*
 * kept.h - an hour log that loses nothing when power fails, at whatever
 * instruction.  To start from: copy it and kept.c to your board's sources.
 *
 * Two copies of the log are kept, so that the one in use is never being changed.
 * Coins that are not logged yet are kept beside the number of the append that is
 * to log them, so that after a power-up each is logged, and once.
 *
 * The coin interrupt calls coins_fell.  All others are for the main program, one
 * at a time.  CLOCK is in hours, by a clock without summer time that counts from
 * a midnight and goes on while the board has no power.
 */
#ifndef KEPT_H
#define KEPT_H

#include "hourlog.h"

/* Four pages log 256 hours, ten days and more.  This arcade takes some 1,000
 * coins in the 64 hours of a page, which need two cells: twelve leave room for
 * better weeks.  (Eight cells a page would suffice for any takings.) */
#ifndef PAGES
#define PAGES 4
#define CELLS 12
#endif
#define STORE_LENGTH HOURLOG_STORE_LENGTH(PAGES, CELLS)

/* Before what must survive: battery-backed RAM, FRAM or MRAM, in a section that the
 * start code neither clears nor fills, as .noinit of most linker scripts. */
#ifndef KEPT
#define KEPT __attribute__((section(".noinit")))
#endif

/* A copy of the log, and what must change together with it. */
struct copy {
    uint8_t store[STORE_LENGTH];
    volatile uint32_t next;   /* the number of its next append; the first was 1 */
    volatile uint32_t hour_0; /* when its hour 0 began, by the clock */
    volatile uint8_t lost[(PAGES + 7) / 8]; /* a bit for each page: see page_is_lost */
};

/* The coins of an hour, which the append of this number logs.  (Not the hour's own
 * number: an insert or a strike changes it.) */
struct waiting {
    volatile uint32_t append, coins;
};

/* All that must survive.  There are two hours' coins, since more fall while those
 * of the hour that is over are being logged. */
struct kept {
    struct copy copies[2];
    struct waiting waiting[2];
    volatile uint8_t in_use; /* which copy is the log, by its lowest bit */
    volatile uint8_t whole;  /* 1 if the other copy is the same as the log */
};
extern struct kept kept;

/* At power-up, before the coin interrupt is let in: 1 if there is a log.  If not, the
 * board is new, or damaged: unless it is new, copy all that is kept away.  Then
 * repair_log; and if that is refused, new_log, which drops it.  Tell of lost pages.
 * Go on with catch_up, and let the interrupt in. */
int power_up(void);
void new_log(uint32_t clock);

/* The log, to be asked.  Where a call refuses it with 10, find_log takes the other
 * copy if that is whole, and answers whether there is a log. */
const uint8_t *store(void);
int find_log(void);

/* Where there is no log: makes one of the damaged copy in use, with as many hours as
 * it says.  Answers how many pages are lost.  Coins that wait go on waiting.  It
 * takes the other copy's place, in which a page may be whole that is lost here: so
 * copy both away before.  Refuses: 18, and both copies are as they were.
 * It takes 4 bytes a page of other RAM, for the list. */
int64_t repair_log(void);

/* Whether a repair lost a page: its hours, from 64*page to 64*page + 63, now read 0 as
 * far as they are logged.  It is kept until it is told, or a new log begins: tell the
 * operator before the next hour is logged, and then call told, which answers as a
 * change does. */
int page_is_lost(uint32_t page);
int64_t told(void);

/* A change: changed(hourlog_set(copy_of_store(), STORE_LENGTH, ..)), and so for append,
 * insert and strike.  The answer is handed on; if it is a refusal, the log is as it
 * was. */
uint8_t *copy_of_store(void);
int64_t changed(int64_t answer);

/* n coins fell. */
void coins_fell(uint32_t n);

/* At each full hour, or whenever it suits soon after: coins that fall from now on
 * are those of the hour that begins.  0 if there is no log: repair it first. */
int begin_hour(uint32_t clock);

/* Does so too, and logs all hours that are over: 0, or the refusal at which it
 * stopped.  The refused hour's coins go on waiting. */
int64_t catch_up(uint32_t clock);

/* At refusal 11 or 12, once the log is saved: a new log, in which so many hours
 * of the day have passed before the one that was refused, which is logged. */
int64_t start_over(uint32_t hours_of_day);

#endif
