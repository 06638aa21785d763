/* Drives a dial through minutes whose time block is lost. A confirmed time is
 * held over three of them, so the dial goes on: it shows the held minute, and one
 * more for every thirty blocks since. The argument has a character for each
 * minute: 1 if its time block comes as it was sent, 0 if it comes damaged. */
#include <stdio.h>
#include <string.h>

#include "longwave.h"
#include "reasons.h"
#include "sample.h"

enum {
    MINUTE = 30,        /* blocks, the last of which is the time block */
    FIRST_YEAR = 1984   /* a record's date is sought in the 28 years from here on */
};

static const uint32_t FILLER = 0x80000000;

/* One block of code 0 as the receiver hears it. */
static void hear(lw_state *state, uint32_t word, int damaged)
{
    uint8_t bits[BLOCK];
    lw_write_block(0, word, bits, BLOCK);
    if (damaged) {
        bits[20] ^= 1;
    }
    lw_run(LW_EDITION_1984, state, bits, BLOCK);
}

/* A minute of the feed: fillers, and the time block of this record. */
static void hear_minute(lw_state *state, lw_record record, int damaged)
{
    for (int block = 1; block < MINUTE; block++) {
        hear(state, FILLER, 0);
    }
    hear(state, lw_write_record(LW_EDITION_1984, record).word, damaged);
}

/* The minute that begins now. */
static lw_recorded minute_of(const lw_state *state)
{
    lw_recorded now = { .refusal = LW_OK, .record = state->record };
    for (int blocks = MINUTE; blocks <= state->age && now.refusal == LW_OK; blocks += MINUTE) {
        now = lw_next_minute(LW_EDITION_1984, now.record);
    }
    return now;
}

static void show(const lw_state *state)
{
    if (state->time != LW_CONFIRMED) {
        printf("blank, %s\n", state->time == LW_CANDIDATE ? "a candidate" : "no time");
        return;
    }
    lw_recorded now = minute_of(state);
    lw_dated dated = lw_date_of_record(LW_EDITION_1984, now.record, FIRST_YEAR);
    uint8_t refusal = now.refusal != LW_OK ? now.refusal : dated.refusal;
    if (refusal != LW_OK) {
        printf("refused with %d: %s\n", refusal, reason_of(refusal));
        return;
    }
    printf("%04d-%02d-%02d %02d:%02d, ", dated.date.year, dated.date.month,
           dated.date.day, dated.date.hour, dated.date.minute);
    if (state->age == 0) {
        printf("confirmed\n");
    } else {
        printf("held for %d min\n", state->age / MINUTE);
    }
}

int main(int argc, char **argv)
{
    if (argc != 2 || argv[1][strspn(argv[1], "01")] != '\0') {
        fprintf(stderr, "expected one argument of characters 0 and 1, a minute each\n");
        return 2;
    }
    lw_date first = { .year = 1999, .month = 12, .day = 31, .hour = 23, .minute = 55 };
    lw_recorded sent = lw_record_of_date(LW_EDITION_1984, first);
    lw_state state = lw_fresh();
    for (const char *minute = argv[1]; *minute != '\0' && sent.refusal == LW_OK; minute++) {
        int damaged = *minute == '0';
        hear_minute(&state, sent.record, damaged);
        printf("%02d:%02d %s: ", sent.record.hour, sent.record.minute,
               damaged ? "lost" : "came");
        show(&state);
        sent = lw_next_minute(LW_EDITION_1984, sent.record);
    }
    return 0;
}
