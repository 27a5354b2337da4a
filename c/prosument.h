/* prosument from C: record files put together in memory, and their report.
 *
 * A record file is the caller's bytes: `file` has `room` bytes, of which the first `*used` are in use. Each of the calls that
 * append a record puts it after those and raises `*used`. Whether the engine accepts the record is told by the report: a
 * refusal is a line `R place number` there.
 *
 * Every call returns one of the numbers below, and after any of them but PROSUMENT_DONE nothing has changed, except that
 * prosument_report tells the length of a text that has no room. What a pointer points to must be as many bytes (or prices) as
 * the length beside it says, and no two pointers of a call may overlap; no pointer may be NULL, even where the length is 0.
 * The library keeps nothing between calls.
 */
#ifndef PROSUMENT_H
#define PROSUMENT_H

#include <stddef.h>
#include <stdint.h>

#ifdef __cplusplus
extern "C" {
#endif

/* All was done. */
#define PROSUMENT_DONE 0u
/* There is no room: the record does not fit between `*used` and `room`, or the report is longer than `room`. */
#define PROSUMENT_NO_ROOM 41u
/* malloc gave no memory. */
#define PROSUMENT_NO_MEMORY 42u
/* There are more than 745 hour prices. */
#define PROSUMENT_TOO_MANY_PRICES 43u

/* The bytes of each record, for those who count their room beforehand. */
#define PROSUMENT_OPEN_METERING_BYTES 11u
#define PROSUMENT_OPEN_BILLING_BYTES 7u
#define PROSUMENT_OPEN_BOOK_BYTES 64u
#define PROSUMENT_MONTH_PRICE_BYTES 8u
#define PROSUMENT_HOUR_PRICES_BYTES(count) (4u + 4u * (count))
#define PROSUMENT_READING_BYTES 12u
#define PROSUMENT_BARE_BYTES 4u

/* What energy is sold by: for each clock hour 0 to 23 the zone 1, 2 or 3, of a working day and of Saturday and Sunday, and the
 * sale price of each zone in gr per MWh. */
struct prosument_tariff {
    uint8_t working[24];
    uint8_t weekend[24];
    uint32_t sale[3];
};

/* Opens metering (net-metering): the month, counted from January 2016 as 0; the installed power in W; the months of a period,
 * 1, 2 or 6. */
uint32_t prosument_open_metering(uint8_t *file, size_t room, size_t *used, uint16_t month, uint32_t power, uint8_t period);

/* Opens billing (net-billing): the month, and the percentage that caps refunds. */
uint32_t prosument_open_billing(uint8_t *file, size_t room, size_t *used, uint16_t month, uint8_t percentage);

/* Opens a book for the account's month. The tariff is only read. */
uint32_t prosument_open_book(uint8_t *file, size_t room, size_t *used, const struct prosument_tariff *tariff);

/* Gives the book its month price, in gr per MWh. */
uint32_t prosument_month_price(uint8_t *file, size_t room, size_t *used, int32_t price);

/* Gives the book its hours' prices, from the month's first hour on: `count` of them, at most 745. The prices are only read.
 * Takes memory by malloc for the time of the call. */
uint32_t prosument_hour_prices(uint8_t *file, size_t room, size_t *used, const int32_t *prices, size_t count);

/* Reads the book's next hour: import and export in Wh. */
uint32_t prosument_reading(uint8_t *file, size_t room, size_t *used, uint32_t import, uint32_t export_);

/* Finishes the book and enters its sums into the account. */
uint32_t prosument_finish(uint8_t *file, size_t room, size_t *used);

/* Settles the account. */
uint32_t prosument_settle(uint8_t *file, size_t room, size_t *used);

/* Turns the account to the next month. */
uint32_t prosument_turn(uint8_t *file, size_t room, size_t *used);

/* The report of a record file of `used` bytes, which are only read: the text that the program `prosument` prints for it, in
 * ASCII, with a line feed after each line and no zero byte at its end. It is written over the first bytes of `text`, which has
 * `room` bytes, and its length into `*length`. Where it has no room, PROSUMENT_NO_ROOM is returned, `text` is as it was, and
 * `*length` says how much it needs: so a first call may be made with a small `text`. Takes memory by malloc for the time of the
 * call, for the text and for hour prices. */
uint32_t prosument_report(const uint8_t *file, size_t used, uint8_t *text, size_t room, size_t *length);

#ifdef __cplusplus
}
#endif

#endif
