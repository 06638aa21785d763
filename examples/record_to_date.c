/* Shows the date in a time block's word. A record names no year: its date is
 * sought in the 28 years from the given one on. */
#include <stdio.h>

#include "longwave.h"
#include "numbers.h"
#include "reasons.h"

static int refused(uint8_t refusal)
{
    printf("refused with %d: %s\n", refusal, reason_of(refusal));
    return 1;
}

int main(int argc, char **argv)
{
    if (argc != 3) {
        fprintf(stderr, "expected two arguments, a word and a year, got %d\n",
                argc > 0 ? argc - 1 : 0);
        return 2;
    }
    uint32_t word = (uint32_t)number_of("word", argv[1], UINT32_MAX);
    uint16_t first_year = (uint16_t)number_of("year", argv[2], UINT16_MAX);

    lw_recorded recorded = lw_read_record(LW_EDITION_1984, 0, word);
    if (recorded.refusal != LW_OK) {
        return refused(recorded.refusal);
    }
    lw_dated dated = lw_date_of_record(LW_EDITION_1984, recorded.record, first_year);
    if (dated.refusal != LW_OK) {
        return refused(dated.refusal);
    }
    lw_date date = dated.date;
    printf("%04d-%02d-%02d %02d:%02d UTC, offset %d\n",
           date.year, date.month, date.day, date.hour, date.minute, date.offset);
    return 0;
}
