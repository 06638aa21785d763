/* Receives a feed from a file of characters 0 and 1, and shows each confirmed
 * time as a date. A newline is skipped, and any other character ends the feed. */
#include <stdio.h>

#include "files.h"
#include "longwave.h"
#include "reasons.h"

/* A record names no year: its date is sought in the 28 years from here on. */
enum { FIRST_YEAR = 1970 };

static void show_date(unsigned long heard, lw_record record)
{
    lw_dated dated = lw_date_of_record(LW_EDITION_1984, record, FIRST_YEAR);
    if (dated.refusal != LW_OK) {
        printf("bit %lu: refused with %d: %s\n", heard, dated.refusal, reason_of(dated.refusal));
        return;
    }
    lw_date date = dated.date;
    printf("bit %lu: %04d-%02d-%02d %02d:%02d UTC, offset %d\n", heard,
           date.year, date.month, date.day, date.hour, date.minute, date.offset);
}

static void receive(FILE *file)
{
    lw_state state = lw_fresh();
    unsigned long heard = 0;
    for (int character = next_character(file); character == '0' || character == '1';
         character = next_character(file)) {
        lw_counts counts = lw_feed(LW_EDITION_1984, &state, (uint8_t)(character - '0'));
        heard++;
        /* This bit ended a block, and the block confirmed the time. */
        if (counts.good == 1 && state.time == LW_CONFIRMED && state.age == 0) {
            show_date(heard, state.record);
        }
    }
}

int main(int argc, char **argv)
{
    FILE *file = opened(named(argc, argv));
    receive(file);
    fclose(file);
    return 0;
}
