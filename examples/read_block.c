/* Reads one block, given as fifty characters 0 and 1, or the sample. */
#include <inttypes.h>
#include <stdio.h>

#include "longwave.h"
#include "reasons.h"
#include "sample.h"

int main(int argc, char **argv)
{
    if (argc > 2) {
        fprintf(stderr, "expected one block of fifty characters 0 and 1, or nothing\n");
        return 2;
    }
    uint8_t bits[BLOCK + 1];
    size_t len = bits_of(argc == 2 ? argv[1] : SAMPLE, bits);

    lw_block block = lw_read_block(bits, len);
    if (block.refusal != LW_OK) {
        printf("refused with %d: %s\n", block.refusal, reason_of(block.refusal));
        return 1;
    }
    printf("code %d, word 0x%08" PRIX32 "\n", block.code, block.word);
    return 0;
}
