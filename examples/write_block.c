/* Writes the block of a code and a word as one line of fifty characters. */
#include <stdio.h>

#include "longwave.h"
#include "numbers.h"
#include "reasons.h"
#include "sample.h"

int main(int argc, char **argv)
{
    if (argc != 3) {
        fprintf(stderr, "expected two arguments, a code and a word, got %d\n",
                argc > 0 ? argc - 1 : 0);
        return 2;
    }
    uint8_t code = (uint8_t)number_of("code", argv[1], 15);
    uint32_t word = (uint32_t)number_of("word", argv[2], UINT32_MAX);

    uint8_t bits[BLOCK];
    uint8_t refusal = lw_write_block(code, word, bits, BLOCK);
    if (refusal != LW_OK) {
        printf("refused with %d: %s\n", refusal, reason_of(refusal));
        return 1;
    }
    for (size_t i = 0; i < BLOCK; i++) {
        putchar('0' + bits[i]);
    }
    putchar('\n');
    return 0;
}
