/* The reason for each refusal, in words. */
#ifndef REASONS_H
#define REASONS_H

#include "longwave.h"

static inline const char *reason_of(uint8_t refusal)
{
    switch (refusal) {
    case LW_OK: return "not refused";
    case LW_NOT_A_BIT: return "a bit is neither 0 nor 1";
    case LW_WRONG_LENGTH: return "a block is not 50 bits long";
    case LW_WRONG_PREFIX: return "the prefix is 0";
    case LW_WRONG_CHECK_WORD: return "the check word is not the remainder";
    case LW_NOT_A_RECORD: return "code not 0, or a filler";
    case LW_OUT_OF_RANGE: return "out of range";
    case LW_NOT_IN_YEAR: return "week 53 in a year without one";
    case LW_WRONG_YEAR: return "the year is out of range";
    case LW_RUN_TOO_LONG: return "a run is longer than 65,536 bits";
    case LW_IMPROPER: return "the state, the watch or the report is not proper";
    case LW_TOO_FEW_READINGS: return "fewer than 64 readings";
    case LW_OUT_OF_DEGREES: return "a reading or the margin is out of range";
    case LW_EQUAL_PAIRINGS: return "both pairings have as many pairs of opposite sign";
    case LW_NUMBER_TOO_WIDE: return "a number has a bit above place 49";
    case LW_NO_SUCH_CHANGE: return "no change within six neighbouring places makes the block good";
    case LW_SEVERAL_CHANGES: return "more than one such change makes the block good";
    case LW_STRING_TOO_LONG: return "a string is longer than 65,536 bits";
    case LW_NOT_A_REMAINDER: return "a remainder is above 8191";
    case LW_WRONG_SIZE: return "a frame is not 12 bytes long, or a field is too wide";
    case LW_WRONG_FIXED_BITS: return "a fixed bit of the frame is wrong";
    case LW_NO_CODEWORD: return "no codeword differs in at most three symbols";
    case LW_WRONG_CRC: return "the CRC does not agree with the mended bytes";
    case LW_WRONG_TRAILER: return "the trailer does not fit";
    case LW_NOT_RISING: return "a bit number is not above the one before";
    case LW_TOO_MANY_BLOCKS: return "a report would have more than 2^32 blocks";
    case LW_NO_ROOM: return "the slice is too short for the bits";
    default: return "no such refusal";
    }
}

#endif
