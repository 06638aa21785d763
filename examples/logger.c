/* A logger: packs the blocks of a feed into a file, each as a number of eight
 * bytes, and reads them back. A block is kept whether it is good or not. */
#include <inttypes.h>
#include <stdio.h>

#include "longwave.h"
#include "reasons.h"
#include "sample.h"

enum { NUMBER = 8 /* bytes, the highest first */ };

/* The sample, a filler, a time block and two of another service, of which the
 * last was received with one bit wrong. */
static const char *const FEED[] = {
    SAMPLE,
    "1" "0000" "10000000000000000000000000000000" "0101000011111",
    "1" "0000" "01001100000101101100100010000010" "1000101111010",
    "1" "0101" "00000000000000000001100110000010" "0101100111100",
    "1" "0101" "00000000000000010001100110000100" "0010000011101",
};

enum { BLOCKS = sizeof FEED / sizeof FEED[0] };

static int failed(const char *what)
{
    perror(what);
    return 2;
}

static size_t write_number(uint64_t number, FILE *file)
{
    uint8_t bytes[NUMBER];
    for (int i = 0; i < NUMBER; i++) {
        bytes[i] = (uint8_t)(number >> 8 * (NUMBER - 1 - i));
    }
    return fwrite(bytes, NUMBER, 1, file);
}

static size_t read_number(uint64_t *number, FILE *file)
{
    uint8_t bytes[NUMBER];
    size_t read = fread(bytes, NUMBER, 1, file);
    *number = 0;
    for (size_t i = 0; i < NUMBER * read; i++) {
        *number = *number << 8 | bytes[i];
    }
    return read;
}

/* Keeps one block; answers 0, or with what to end the program. */
static int keep(const char *text, FILE *file)
{
    uint8_t bits[BLOCK + 1];
    lw_packed packed = lw_pack(bits, bits_of(text, bits));
    if (packed.refusal != LW_OK) {
        printf("refused with %d: %s\n", packed.refusal, reason_of(packed.refusal));
        return 1;
    }
    return write_number(packed.block, file) == 1 ? 0 : failed("writing a block");
}

static void show(uint64_t number)
{
    lw_block block = lw_read_packed(number);
    if (block.refusal != LW_OK) {
        printf("0x%013" PRIX64 ": refused with %d: %s\n",
               number, block.refusal, reason_of(block.refusal));
        return;
    }
    printf("0x%013" PRIX64 ": code %d, word 0x%08" PRIX32 "\n", number, block.code, block.word);
}

int main(void)
{
    FILE *file = tmpfile();
    if (file == NULL) {
        return failed("a temporary file");
    }
    for (size_t i = 0; i < BLOCKS; i++) {
        int status = keep(FEED[i], file);
        if (status != 0) {
            return status;
        }
    }
    printf("%d blocks: %d bytes as bits, %ld as numbers\n", BLOCKS, BLOCKS * BLOCK, ftell(file));

    rewind(file);
    uint64_t number;
    while (read_number(&number, file) == 1) {
        show(number);
    }
    fclose(file);
    return 0;
}
