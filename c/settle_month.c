/* Settles February 2024 of a metering account: 100 Wh taken in the first hour, 200 Wh given in the second. */
#include <stdio.h>
#include <string.h>

#include "prosument.h"

/* 29 days of 24 hours. */
enum { HOURS = 696, ROOM = 9000 };

static uint8_t file[ROOM];
static uint8_t text[1000];

/* The readings of the month, one for each hour. */
static uint32_t put_readings(size_t *used)
{
    for (int hour = 0; hour < HOURS; hour++) {
        uint32_t import = hour == 0 ? 100 : 0;
        uint32_t export_ = hour == 1 ? 200 : 0;
        uint32_t number = prosument_reading(file, sizeof file, used, import, export_);
        if (number != PROSUMENT_DONE)
            return number;
    }
    return PROSUMENT_DONE;
}

/* The whole file: an account, a book with its price and readings, and the settlement. */
static uint32_t put_month(size_t *used)
{
    struct prosument_tariff tariff = {.sale = {0, 0, 0}};
    uint32_t number;

    memset(tariff.working, 1, sizeof tariff.working);
    memset(tariff.weekend, 1, sizeof tariff.weekend);
    if ((number = prosument_open_metering(file, sizeof file, used, 97, 10000, 1)) != PROSUMENT_DONE
        || (number = prosument_open_book(file, sizeof file, used, &tariff)) != PROSUMENT_DONE
        || (number = prosument_month_price(file, sizeof file, used, 0)) != PROSUMENT_DONE
        || (number = put_readings(used)) != PROSUMENT_DONE
        || (number = prosument_finish(file, sizeof file, used)) != PROSUMENT_DONE
        || (number = prosument_settle(file, sizeof file, used)) != PROSUMENT_DONE)
        return number;
    return prosument_turn(file, sizeof file, used);
}

/* Each way in which a call is misused gives its number, and changes nothing. */
static int misuses(size_t used)
{
    static const int32_t prices[746];
    uint8_t small[10] = "unchanged";
    size_t length = 4;
    size_t far = (size_t)-1;

    return prosument_turn(small, 7, &length) == PROSUMENT_NO_ROOM && length == 4
        && prosument_turn(small, sizeof small, &far) == PROSUMENT_NO_ROOM && far == (size_t)-1
        && prosument_hour_prices(file, sizeof file, &used, prices, 746) == PROSUMENT_TOO_MANY_PRICES
        && prosument_report(file, used, small, sizeof small, &length) == PROSUMENT_NO_ROOM && length > sizeof small
        && memcmp(small, "unchanged", 10) == 0;
}

int main(void)
{
    size_t used = 0;
    size_t length = 0;
    uint32_t number = put_month(&used);

    if (number == PROSUMENT_DONE)
        number = prosument_report(file, used, text, sizeof text, &length);
    if (number != PROSUMENT_DONE || !misuses(used)) {
        fprintf(stderr, "settle_month: number %u\n", (unsigned)number);
        return 1;
    }
    fwrite(text, 1, length, stdout);
    return 0;
}
