/* A sample block, and text of 0 and 1 turned into bits. */
#ifndef SAMPLE_H
#define SAMPLE_H

#include "longwave.h"

enum { BLOCK = 50 };

/* Prefix, code 0, word 1 and the check word 0x1CF5 that belongs to them. */
#define SAMPLE "1" "0000" "00000000000000000000000000000001" "1110011110101"

/* Fills `bits` from text and answers how many it took. One more than a block
 * is enough to be refused for its length, so no more are taken. A character
 * other than 0 and 1 becomes a byte other than 0 and 1. */
static inline size_t bits_of(const char *text, uint8_t bits[BLOCK + 1])
{
    size_t len = 0;
    while (len < BLOCK + 1 && text[len] != '\0') {
        bits[len] = (uint8_t)(text[len] - '0');
        len++;
    }
    return len;
}

#endif
