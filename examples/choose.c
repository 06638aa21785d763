/* Two aerials: takes the block from whichever received it undamaged. */
#include <inttypes.h>
#include <stdio.h>

#include "longwave.h"
#include "reasons.h"
#include "sample.h"

static void show(const char *title, const uint8_t *first, const uint8_t *second)
{
    uint8_t number;
    uint16_t remainder;
    uint8_t which = lw_choose(first, BLOCK, second, BLOCK, &number, &remainder);
    if (which == 0) {
        printf("%s: neither, refused with %d: %s\n", title, number, reason_of(number));
        printf("  remainder of the first 0x%04" PRIX16 "\n", remainder);
        return;
    }
    lw_block block = lw_read_block(which == 1 ? first : second, BLOCK);
    printf("%s: aerial %d, code %d, word 0x%08" PRIX32 "\n",
           title, which, block.code, block.word);
}

int main(void)
{
    uint8_t good[BLOCK + 1], damaged[BLOCK + 1];
    bits_of(SAMPLE, good);
    bits_of(SAMPLE, damaged);
    damaged[20] ^= 1;

    show("first damaged", damaged, good);
    show("second damaged", good, damaged);
    show("both damaged", damaged, damaged);
    return 0;
}
