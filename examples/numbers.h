/* Numbers that are given as text. */
#ifndef NUMBERS_H
#define NUMBERS_H

#include <errno.h>
#include <inttypes.h>
#include <stdio.h>
#include <stdlib.h>
#include <string.h>

/* Reads a number up to `most`, in decimal or after 0x in hexadecimal; says
 * what was expected and gives up where the text is none. */
static uint64_t number_of(const char *name, const char *text, uint64_t most)
{
    int hexadecimal = strncmp(text, "0x", 2) == 0;
    const char *digits = hexadecimal ? text + 2 : text;
    const char *allowed = hexadecimal ? "0123456789abcdefABCDEF" : "0123456789";
    size_t len = strspn(digits, allowed);

    errno = 0;
    unsigned long long value = strtoull(digits, NULL, hexadecimal ? 16 : 10);
    if (len == 0 || digits[len] != '\0' || errno != 0 || value > most) {
        fprintf(stderr, "%s: expected a number from 0 to %" PRIu64 ", got '%s'\n",
                name, most, text);
        exit(2);
    }
    return value;
}

#endif
