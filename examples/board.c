/* Decides the half-bit readings of the radio board and feeds the bits to the receiver.
 * The board began in the middle of a bit, and one bit came so faint that nobody can
 * tell it; from a board without an aerial nothing is decided. */
#include <stdio.h>

#include "longwave.h"
#include "reasons.h"
#include "sample.h"

enum {
    BLOCKS = 5,
    READINGS = 1 + 2 * BLOCKS * BLOCK, /* the first is the second half of a bit */
    FAINT = 3 * BLOCK,                 /* the bit that comes faint: the prefix of a block */
    FEWEST = 64
};

static const uint32_t FILLER = 0x80000000;
static const float MARGIN = 5;

/* The two halves of a bit: the phase swings from one side to the other, now a little
 * more and now a little less. */
static void send(uint8_t bit, int count, float *halves)
{
    float swing = count == FAINT ? 2 : 20 + count % 7;
    halves[0] = bit == 1 ? swing : -swing;
    halves[1] = -halves[0];
}

/* Four fillers and a time block, as the board reads them. */
static void read_board(float *readings)
{
    lw_date date = { .year = 1986, .month = 1, .day = 1, .hour = 12, .minute = 34 };
    lw_record record = lw_record_of_date(LW_EDITION_1984, date).record;
    uint32_t time = lw_write_record(LW_EDITION_1984, record).word;
    readings[0] = 21;
    for (int block = 0; block < BLOCKS; block++) {
        uint8_t bits[BLOCK];
        lw_write_block(0, block < BLOCKS - 1 ? FILLER : time, bits, BLOCK);
        for (int bit = 0; bit < BLOCK; bit++) {
            int count = block * BLOCK + bit;
            send(bits[bit], count, readings + 1 + 2 * count);
        }
    }
}

/* Says what was decided, and whether anything was. */
static int decided(lw_decided answer, int readings)
{
    printf("%d readings: ", readings);
    if (answer.refusal != LW_OK) {
        printf("refused with %d: %s\n", answer.refusal, reason_of(answer.refusal));
        return 0;
    }
    printf("pairing %d, %d bits\n", answer.pairing, (int)answer.bits);
    return 1;
}

int main(void)
{
    float readings[READINGS];
    uint8_t bits[READINGS / 2];
    read_board(readings);
    lw_decided answer = lw_decide(readings, READINGS, MARGIN, 0, bits, sizeof bits);
    if (decided(answer, READINGS)) {
        lw_state state = lw_fresh();
        lw_counts counts = lw_run(LW_EDITION_1984, &state, bits, answer.bits);
        printf("%d good blocks, %d bad, %d bits passed over, %d waiting\n", (int)counts.good,
               (int)counts.bad, (int)counts.passed, (int)counts.waiting);
        printf("%s, %s %02d:%02d\n", state.mode == LW_LOCKED ? "locked" : "not locked",
               state.time == LW_CANDIDATE ? "a candidate" : "no candidate",
               state.record.hour, state.record.minute);
    }
    float silence[FEWEST] = { 0 };
    decided(lw_decide(silence, FEWEST, MARGIN, 0, bits, sizeof bits), FEWEST);
    return 0;
}
