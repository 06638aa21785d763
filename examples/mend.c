/* Mends the blocks of a log, a file of one number a line, each as lw_pack gives it,
 * and says what was changed. Places count from 0, the prefix, to 49. The pattern has
 * a digit for each of the six places from the first changed one on: 1 where it was
 * changed, 0 where it was not or where the block has ended.
 *
 * Damage that six neighbouring places do not hold may be mended to another block
 * than was sent, so a log should be kept as it was received. */
#include <inttypes.h>
#include <stdio.h>
#include <stdlib.h>
#include <string.h>

#include "files.h"
#include "longwave.h"
#include "numbers.h"
#include "reasons.h"
#include "sample.h"

enum { LINE = 100, SIX = 6 };

/* Fills `line` with the next line, without its newline, and answers 1, or 0 at the
 * end of the file. Says so and gives up where a line is too long for a number. */
static int next_line(const char *name, FILE *file, char line[LINE])
{
    if (fgets(line, LINE, file) == NULL) {
        return 0;
    }
    size_t len = strcspn(line, "\n");
    if (len == LINE - 1) {
        fprintf(stderr, "%s: expected a number in each line, got '%s...'\n", name, line);
        exit(2);
    }
    line[len] = '\0';
    return 1;
}

static void show_refused(uint8_t refusal)
{
    printf("refused with %d: %s\n", refusal, reason_of(refusal));
}

static void show_mended(const uint8_t bits[BLOCK], lw_mended mended)
{
    printf("mended to 0x%013" PRIX64 ", pattern ", lw_pack(bits, BLOCK).block);
    for (int place = 0; place < SIX; place++) {
        putchar('0' + (mended.pattern >> (SIX - 1 - place) & 1));
    }
    printf(" from place %d on\n", mended.place);
}

static void mend(uint64_t number)
{
    printf("0x%013" PRIX64 ": ", number);
    uint8_t bits[BLOCK];
    uint8_t refusal = lw_unpack(number, bits, BLOCK);
    if (refusal != LW_OK) {
        show_refused(refusal);
        return;
    }
    lw_mended mended = lw_mend_block(bits, BLOCK);
    if (mended.refusal != LW_OK) {
        show_refused(mended.refusal);
    } else if (mended.pattern == 0) {
        puts("good");
    } else {
        show_mended(bits, mended);
    }
}

int main(int argc, char **argv)
{
    const char *name = named(argc, argv);
    FILE *file = opened(name);
    char line[LINE];
    while (next_line(name, file, line)) {
        mend(number_of(name, line, UINT64_MAX));
    }
    close_read(name, file);
    return 0;
}
