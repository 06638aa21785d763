/* How a block failed: the remainder that it tells, and each single place that
 * would have left the same remainder if it alone had come wrong. Takes a block
 * as it was received, fifty characters 0 and 1, or shows some faults of its own.
 * Places count from 0, the first sent bit, to 49. */
#include <inttypes.h>
#include <stdio.h>
#include <string.h>

#include "longwave.h"
#include "reasons.h"
#include "sample.h"

/* What the sample tells with this place changed; 0 for the prefix, which gets 3. */
static uint16_t left_by(size_t place)
{
    uint8_t bits[BLOCK + 1];
    bits_of(SAMPLE, bits);
    bits[place] ^= 1;
    return lw_read_block(bits, BLOCK).remainder;
}

/* The remainder comes from the changed places alone, whatever block was sent, so
 * what the sample tells holds for any other. */
static void show_places(uint16_t remainder)
{
    printf("  remainder 0x%04" PRIX16 "\n", remainder);
    int fits = 0;
    for (size_t place = 0; place < BLOCK; place++) {
        if (left_by(place) == remainder) {
            printf("  place %zu alone would leave it\n", place);
            fits++;
        }
    }
    if (fits == 0) {
        printf("  no single place would leave it\n");
    }
}

static void show(const char *title, const uint8_t *bits, size_t len)
{
    lw_block block = lw_read_block(bits, len);
    if (block.refusal == LW_OK) {
        printf("%s: good\n", title);
        return;
    }
    printf("%s: refused with %d: %s\n", title, block.refusal, reason_of(block.refusal));
    if (block.refusal == LW_WRONG_CHECK_WORD) {
        show_places(block.remainder);
    }
}

/* A receiver tells the remainder of the last such block of each call. */
static void show_feed(const uint8_t good[BLOCK], const uint8_t damaged[BLOCK])
{
    lw_state state = lw_fresh();
    for (int i = 0; i < 3; i++) {
        lw_run(LW_EDITION_1984, &state, good, BLOCK);
    }
    lw_counts counts = lw_run(LW_EDITION_1984, &state, damaged, BLOCK);
    printf("in a feed, behind three good blocks: %" PRIu32 " bad\n", counts.bad);
    show_places(counts.remainder);
}

/* The time block of 1 January 1986, 12:34, as it is sent and as it may come. */
static int show_some_faults(void)
{
    uint8_t sent[BLOCK], received[BLOCK];
    uint8_t refusal = lw_write_block(0, 0x4C16C882, sent, BLOCK);
    if (refusal != LW_OK) {
        printf("refused with %d: %s\n", refusal, reason_of(refusal));
        return 1;
    }
    show("as it is sent", sent, BLOCK);

    memcpy(received, sent, BLOCK);
    received[20] ^= 1;
    show("place 20 changed", received, BLOCK);
    show_feed(sent, received);
    received[33] ^= 1;
    show("places 20 and 33 changed", received, BLOCK);
    return 0;
}

int main(int argc, char **argv)
{
    if (argc > 2) {
        fprintf(stderr, "expected one block of fifty characters 0 and 1, or nothing\n");
        return 2;
    }
    if (argc < 2) {
        return show_some_faults();
    }
    uint8_t bits[BLOCK + 1];
    show("the block", bits, bits_of(argv[1], bits));
    return 0;
}
