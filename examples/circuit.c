/* The division circuit turn by turn: how the check word of a code and a word
 * comes about, and how the block that the library writes for them is checked.
 * docs/CIRCUIT.md explains it. */
#include <stdio.h>

#include "longwave.h"
#include "numbers.h"
#include "reasons.h"
#include "sample.h"

enum { PLACES = 13, BODY = 36, GENERATOR = 0x3CF5, PRESET = GENERATOR / 2 };

static void show(unsigned held)
{
    for (int place = PLACES - 1; place >= 0; place--) {
        putchar('0' + (int)(held >> place & 1));
    }
}

/* Turns once for each bit, says what the register holds, and answers what is
 * left in it. Turns that let a 0 into an empty register are told together. */
static unsigned turn_over(unsigned held, const uint8_t *bits, int count)
{
    int first = 1;
    for (int turn = 1; turn <= count; turn++) {
        int bit = bits[turn - 1];
        unsigned top = held >> (PLACES - 1);
        held = held << 1 | (unsigned)bit;
        if (top == 1) {
            held ^= GENERATOR;
        }
        if (top == 0 && held == 0 && turn < count && bits[turn] == 0) {
            continue;
        }
        if (first < turn) {
            printf("turns %d to ", first);
        } else {
            printf("turn ");
        }
        printf("%d: %d in, register ", turn, bit);
        show(held);
        puts(top == 1 ? ", fed back" : "");
        first = turn + 1;
    }
    return held;
}

static void show_writing(uint8_t code, uint32_t word, const uint8_t block[BLOCK])
{
    puts("writing: the register is cleared");
    uint64_t body = (uint64_t)code << 32 | word;
    uint8_t bits[BODY + PLACES] = {0};
    for (int i = 0; i < BODY; i++) {
        bits[i] = (uint8_t)(body >> (BODY - 1 - i) & 1);
    }
    unsigned check = turn_over(0, bits, BODY + PLACES);

    unsigned written = 0;
    for (int i = BLOCK - PLACES; i < BLOCK; i++) {
        written = written << 1 | block[i];
    }
    printf("check word 0x%04X, the library's 0x%04X\n", check, written);
}

static void show_reading(const uint8_t block[BLOCK])
{
    printf("reading: the register is preset to ");
    show(PRESET);
    putchar('\n');
    unsigned rest = turn_over(PRESET, block, BLOCK);
    printf("remainder %u, the library's answer %d\n", rest, lw_read_block(block, BLOCK).refusal);
}

int main(int argc, char **argv)
{
    if (argc != 3) {
        fprintf(stderr, "expected two arguments, a code and a word, got %d\n",
                argc > 0 ? argc - 1 : 0);
        return 2;
    }
    uint8_t code = (uint8_t)number_of("code", argv[1], 15);
    uint32_t word = (uint32_t)number_of("word", argv[2], UINT32_MAX);

    uint8_t block[BLOCK];
    uint8_t refusal = lw_write_block(code, word, block, BLOCK);
    if (refusal != LW_OK) {
        printf("refused with %d: %s\n", refusal, reason_of(refusal));
        return 1;
    }
    show_writing(code, word, block);
    show_reading(block);
    return 0;
}
