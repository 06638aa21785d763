/* A museum plays a tape that was made under the 1982 specification, once for each
 * edition given as an argument. Its leap codes have another meaning in 1984, so
 * only 1982 shows the dates that were sent. Under 1984 a dial confirms other
 * dates, and goes blank where the week's year changes. */
#include <stdio.h>

#include "longwave.h"
#include "numbers.h"
#include "reasons.h"
#include "sample.h"

enum {
    MINUTES = 5,
    MINUTE = 30 * BLOCK, /* bits, of which the last block is the time block */
    FIRST_YEAR = 1970    /* a record's date is sought in the 28 years from here on */
};

/* In 1982 a filler begins with six zeros. */
static const uint32_t FILLER = 0;

static int refused(uint8_t refusal)
{
    printf("refused with %d: %s\n", refusal, reason_of(refusal));
    return 1;
}

/* A minute of the tape: fillers, and the time block of this record. */
static void write_minute(lw_record record, uint8_t bits[MINUTE])
{
    const int last = MINUTE - BLOCK;
    for (int start = 0; start < last; start += BLOCK) {
        lw_write_block(0, FILLER, bits + start, BLOCK);
    }
    lw_word written = lw_write_record(LW_EDITION_1982, record);
    lw_write_block(0, written.word, bits + last, BLOCK);
}

/* The night to Monday, 3 January 1983, with which week 1 of 1983 begins. Each
 * time block tells the minute that comes after it. */
static uint8_t write_tape(uint8_t tape[MINUTES * MINUTE])
{
    lw_date first = { .year = 1983, .month = 1, .day = 2, .hour = 23, .minute = 57 };
    lw_recorded told = lw_record_of_date(LW_EDITION_1982, first);
    for (int minute = 0; minute < MINUTES && told.refusal == LW_OK; minute++) {
        write_minute(told.record, tape + minute * MINUTE);
        told = lw_next_minute(LW_EDITION_1982, told.record);
    }
    return told.refusal;
}

/* No time block of this tape is missed: the minute that begins is the record's. */
static void show(uint16_t edition, const lw_state *state)
{
    if (state->time != LW_CONFIRMED) {
        printf("blank, %s\n", state->time == LW_CANDIDATE ? "a candidate" : "no time");
        return;
    }
    lw_dated dated = lw_date_of_record(edition, state->record, FIRST_YEAR);
    if (dated.refusal != LW_OK) {
        refused(dated.refusal);
        return;
    }
    lw_date date = dated.date;
    printf("%04d-%02d-%02d %02d:%02d, confirmed\n",
           date.year, date.month, date.day, date.hour, date.minute);
}

/* What a dial shows after each minute of the tape. */
static int play(uint16_t edition, const uint8_t tape[MINUTES * MINUTE])
{
    printf("edition %d\n", edition);
    lw_state state = lw_fresh();
    for (int minute = 0; minute < MINUTES; minute++) {
        lw_counts counts = lw_run(edition, &state, tape + minute * MINUTE, MINUTE);
        if (counts.refusal != LW_OK) {
            return refused(counts.refusal);
        }
        printf("  minute %d: ", minute + 1);
        show(edition, &state);
    }
    return 0;
}

int main(int argc, char **argv)
{
    if (argc < 2) {
        fprintf(stderr, "expected one argument or more, an edition each\n");
        return 2;
    }
    uint8_t tape[MINUTES * MINUTE];
    uint8_t refusal = write_tape(tape);
    if (refusal != LW_OK) {
        return refused(refusal);
    }
    int wrong = 0;
    for (int i = 1; i < argc; i++) {
        wrong |= play((uint16_t)number_of("edition", argv[i], UINT16_MAX), tape);
    }
    return wrong;
}
