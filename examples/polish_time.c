/* Reads a Polish time frame in which two symbols are wrong, shows the time that
 * it tells, and writes that time again to see which bytes were mended. */
#include <stdio.h>
#include <time.h>

#include "longwave.h"
#include "reasons.h"

enum {
    FRAME = 12,
    PERIOD = 3,           /* seconds */
    HOUR = 60 * 60,       /* seconds */
    YEAR_2000 = 946684800 /* seconds from 1970, where gmtime begins */
};

/* Wrong are the fifth of the nine symbols, in byte 6, and the fourth of the six
 * check symbols, in byte 10. */
static const uint8_t RECEIVED[FRAME] = {
    0x55, 0x55, 0x60, 0xA2, 0x93, 0x18, 0xF2, 0xEB, 0xBC, 0x8F, 0x41, 0x87,
};

/* Every day is taken to have 86,400 seconds. */
static void show_seconds(const char *title, time_t seconds)
{
    char text[] = "2000-01-01 00:00:00";
    strftime(text, sizeof text, "%Y-%m-%d %H:%M:%S", gmtime(&seconds));
    printf("%s: %s\n", title, text);
}

static void show_time(lw_polish told)
{
    time_t seconds = YEAR_2000 + PERIOD * (time_t)told.periods;
    /* The table of TZ0 and TZ1: the first stands for one hour, the second for two. */
    int hours = told.tz0 + 2 * told.tz1;
    show_seconds("UTC", seconds);
    printf("offset: %d h\n", hours);
    show_seconds("local time", seconds + hours * HOUR);
}

static int refused(uint8_t refusal)
{
    printf("refused with %d: %s\n", refusal, reason_of(refusal));
    return 1;
}

int main(void)
{
    lw_polish_answer answer = lw_read_polish(RECEIVED, FRAME);
    if (answer.refusal != LW_OK) {
        return refused(answer.refusal);
    }
    show_time(answer.time);

    uint8_t sent[FRAME];
    uint8_t refusal = lw_write_polish(answer.time, sent, FRAME);
    if (refusal != LW_OK) {
        return refused(refusal);
    }
    for (size_t i = 0; i < FRAME; i++) {
        if (sent[i] != RECEIVED[i]) {
            printf("byte %zu: %02X received, %02X sent\n", i + 1, RECEIVED[i], sent[i]);
        }
    }
    return 0;
}
