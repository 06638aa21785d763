/* A date becomes a record, a word and a block, and the block a date again. */
#include <inttypes.h>
#include <stdio.h>

#include "longwave.h"
#include "reasons.h"
#include "sample.h"

/* A record names no year: the week's year is sought in the 28 from here on. */
enum { FIRST_YEAR = 1986 };

static void show_date(const char *title, lw_date date)
{
    printf("%s: %04d-%02d-%02d %02d:%02d UTC, offset %d\n", title,
           date.year, date.month, date.day, date.hour, date.minute, date.offset);
}

static void show_refusal(uint8_t refusal)
{
    printf("refused with %d: %s\n", refusal, reason_of(refusal));
}

/* Writes the block of a date, or answers why there is none. */
static uint8_t write_date(lw_date date, uint8_t bits[BLOCK])
{
    lw_recorded recorded = lw_record_of_date(LW_EDITION_1984, date);
    if (recorded.refusal != LW_OK) {
        return recorded.refusal;
    }
    lw_record record = recorded.record;
    printf("record: leap code %d, start day %d, week %d, weekday %d, %02d:%02d, offset %d\n",
           record.leap, record.start_day, record.week, record.weekday,
           record.hour, record.minute, record.offset);

    lw_word written = lw_write_record(LW_EDITION_1984, record);
    if (written.refusal != LW_OK) {
        return written.refusal;
    }
    printf("word: 0x%08" PRIX32 "\n", written.word);
    return lw_write_block(0, written.word, bits, BLOCK);
}

/* Reads the date in a block, or answers with the first refusal. */
static lw_dated read_date(const uint8_t bits[BLOCK])
{
    lw_dated dated = {0};
    lw_block block = lw_read_block(bits, BLOCK);
    if (block.refusal != LW_OK) {
        dated.refusal = block.refusal;
        return dated;
    }
    lw_recorded recorded = lw_read_record(LW_EDITION_1984, block.code, block.word);
    if (recorded.refusal != LW_OK) {
        dated.refusal = recorded.refusal;
        return dated;
    }
    return lw_date_of_record(LW_EDITION_1984, recorded.record, FIRST_YEAR);
}

static void show(lw_date date)
{
    show_date("date", date);
    uint8_t bits[BLOCK];
    uint8_t refusal = write_date(date, bits);
    if (refusal != LW_OK) {
        show_refusal(refusal);
        return;
    }
    printf("block: ");
    for (size_t i = 0; i < BLOCK; i++) {
        putchar('0' + bits[i]);
    }
    putchar('\n');

    lw_dated dated = read_date(bits);
    if (dated.refusal != LW_OK) {
        show_refusal(dated.refusal);
        return;
    }
    show_date("date again", dated.date);
}

int main(void)
{
    /* 12:34 UTC on New Year's Day, local time one hour ahead. */
    show((lw_date){.year = 1986, .month = 1, .day = 1, .hour = 12, .minute = 34, .offset = 2});
    /* This day is in the first week of 2013. */
    show((lw_date){.year = 2012, .month = 12, .day = 31});
    /* The last year that can be coded is 2099, and its last week ends on 3 January. */
    show((lw_date){.year = 2100, .month = 1, .day = 4});
    return 0;
}
