/* Two loggers each hold half of a string of bits, in a file of characters 0 and 1:
 * what each half leaves, and what both leave together, for which one logger needs
 * the other's remainder and length and none of its bits. A newline is skipped.
 *
 * The samples are three good blocks, the first bit of each inverted, cut within the
 * second. Such a block leaves 0, so all three do. */
#include <inttypes.h>
#include <stdio.h>

#include "files.h"
#include "longwave.h"
#include "reasons.h"

enum { MOST = 65536 /* bits of a half */ };

/* Fills `bits` from a file and answers how many it took. One more than the most
 * is enough to be refused for its length, so no more are taken. A character other
 * than 0 and 1 becomes a byte other than 0 and 1. */
static size_t bits_of_file(const char *name, uint8_t bits[MOST + 1])
{
    FILE *file = opened(name);
    size_t len = 0;
    for (int character = next_character(file); len < MOST + 1 && character != EOF;
         character = next_character(file)) {
        bits[len] = (uint8_t)(character - '0');
        len++;
    }
    close_read(name, file);
    return len;
}

/* Says what so many bits leave, or why they are refused; answers 0 or 1. */
static int show(const char *title, size_t len, lw_remainder left)
{
    if (left.refusal != LW_OK) {
        printf("%s: refused with %d: %s\n", title, left.refusal, reason_of(left.refusal));
        return 1;
    }
    printf("%s: %zu bits, remainder 0x%04" PRIX16 "\n", title, len, left.remainder);
    return 0;
}

int main(int argc, char **argv)
{
    if (argc != 3) {
        fprintf(stderr, "expected two arguments, the names of two files, got %d\n",
                argc > 0 ? argc - 1 : 0);
        return 2;
    }
    static uint8_t bits[MOST + 1];
    size_t lengths[2];
    lw_remainder halves[2];
    for (int i = 0; i < 2; i++) {
        lengths[i] = bits_of_file(argv[i + 1], bits);
        halves[i] = lw_remainder_of(bits, lengths[i]);
        if (show(argv[i + 1], lengths[i], halves[i]) != 0) {
            return 1;
        }
    }
    return show("both together", lengths[0] + lengths[1],
                lw_join(halves[0].remainder, halves[1].remainder, (uint32_t)lengths[1]));
}
