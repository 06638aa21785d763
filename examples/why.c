/* Says after every minute of a feed why the dial is blank, or that the time is
 * confirmed. The argument has a character for each minute: 1 if its time block comes
 * as it was sent, 0 if it comes damaged, ? if it tells another hour, - if no block
 * comes at all. The bits that are told are counted from 1; a minute has 1500. */
#include <inttypes.h>
#include <stdio.h>
#include <string.h>

#include "longwave.h"
#include "reasons.h"
#include "sample.h"

enum {
    MINUTE = 30 * BLOCK,    /* bits, of which the last block is the time block */
    LAST = MINUTE - BLOCK   /* where that begins */
};

static const uint32_t FILLER = 0x80000000;

/* What comes of a minute that ends with the time block of this record. */
static void receive_minute(lw_record record, char how, uint8_t bits[MINUTE])
{
    if (how == '-') {
        memset(bits, 0, MINUTE);
        return;
    }
    for (int start = 0; start < LAST; start += BLOCK) {
        lw_write_block(0, FILLER, bits + start, BLOCK);
    }
    if (how == '?') {
        record.hour = (record.hour + 1) % 24;
    }
    lw_write_block(0, lw_write_record(LW_EDITION_1984, record).word, bits + LAST, BLOCK);
    if (how == '0') {
        bits[LAST + 20] ^= 1;
    }
}

static const char *in_words(char how)
{
    switch (how) {
    case '1': return "came";
    case '0': return "lost";
    case '?': return "another hour";
    default: return "silent";
    }
}

static void show(lw_standing standing)
{
    switch (standing.kind) {
    case LW_WHY_CONFIRMED:
        printf("confirmed\n");
        break;
    case LW_WHY_LOCK_LOST:
        printf("lock lost at bit %" PRIu64 "\n", standing.bit);
        break;
    case LW_WHY_NEVER_LOCKED:
        printf("never locked\n");
        break;
    case LW_WHY_BLOCK_MISSING:
        printf("the expected block missing at bit %" PRIu64 "\n", standing.bit);
        break;
    case LW_WHY_NO_USABLE_BLOCK:
        printf("no usable block since lock\n");
        break;
    case LW_WHY_NOT_NEXT_MINUTE:
        printf("not the next minute at bit %" PRIu64 "\n", standing.bit);
        break;
    case LW_WHY_TOO_YOUNG:
        printf("candidate too young\n");
        break;
    default:
        printf("refused with %d: %s\n", standing.refusal, reason_of(standing.refusal));
    }
}

int main(int argc, char **argv)
{
    if (argc != 2 || argv[1][strspn(argv[1], "01?-")] != '\0') {
        fprintf(stderr, "expected one argument of characters 0, 1, ? and -, a minute each\n");
        return 2;
    }
    lw_date first = { .year = 1986, .month = 1, .day = 1, .hour = 12, .minute = 34 };
    lw_recorded sent = lw_record_of_date(LW_EDITION_1984, first);
    lw_watch watch = lw_watch_fresh();
    for (const char *minute = argv[1]; *minute != '\0' && sent.refusal == LW_OK; minute++) {
        uint8_t bits[MINUTE];
        receive_minute(sent.record, *minute, bits);
        lw_watch_run(LW_EDITION_1984, &watch, bits, MINUTE);
        printf("%02d:%02d %s: ", sent.record.hour, sent.record.minute, in_words(*minute));
        show(lw_why(LW_EDITION_1984, watch));
        sent = lw_next_minute(LW_EDITION_1984, sent.record);
    }
    return 0;
}
