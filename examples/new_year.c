/* Midnight around New Year: the last minute of a day and the first of the next,
 * each with the record that is sent for it. Weeks are those of ISO 8601, so the
 * year that a record is coded in need not be that of the date. */
#include <stdio.h>

#include "longwave.h"
#include "reasons.h"

static void show(lw_date date, lw_record record)
{
    printf("%04d-%02d-%02d %02d:%02d  week %2d, weekday %d, start day %d, leap code %d\n",
           date.year, date.month, date.day, date.hour, date.minute,
           record.week, record.weekday, record.start_day, record.leap);
}

static int refused(uint8_t refusal)
{
    printf("refused with %d: %s\n", refusal, reason_of(refusal));
    return 1;
}

/* The record of the last minute of a day, and what comes after it. */
static int over_midnight(uint16_t year, uint8_t month, uint8_t day)
{
    lw_date last = {.year = year, .month = month, .day = day, .hour = 23, .minute = 59};
    lw_recorded recorded = lw_record_of_date(LW_EDITION_1984, last);
    if (recorded.refusal != LW_OK) {
        return refused(recorded.refusal);
    }
    show(last, recorded.record);

    lw_recorded next = lw_next_minute(LW_EDITION_1984, recorded.record);
    if (next.refusal != LW_OK) {
        return refused(next.refusal);
    }
    /* The week's year is at most one away from the date's, and so in these 28. */
    lw_dated dated = lw_date_of_record(LW_EDITION_1984, next.record, (uint16_t)(year - 14));
    if (dated.refusal != LW_OK) {
        return refused(dated.refusal);
    }
    show(dated.date, next.record);
    return 0;
}

int main(void)
{
    /* 1981 starts on a Thursday: its week 53 ends in January. */
    int wrong = over_midnight(1981, 12, 31) + over_midnight(1982, 1, 3);
    /* 1986 starts on a Wednesday and is no leap year: its week 52 is the last. */
    wrong += over_midnight(1986, 12, 28) + over_midnight(1986, 12, 31);
    /* 2012 starts on a Sunday: its week 1 begins on the day after. */
    wrong += over_midnight(2012, 1, 1) + over_midnight(2012, 12, 30);
    return wrong;
}
