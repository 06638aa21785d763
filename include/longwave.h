/* The long-wave radio-data receiver, as C calls it.
 *
 * In memory a bit is a byte of value 0 or 1, first sent bit first. A block is
 * 50 of them: prefix 1, code 4, word 32, check word 13. The Polish frame and the
 * journal are otherwise: they are whole bytes of eight bits each, the first bit
 * highest.
 *
 * A block can also be kept as one 64-bit number, which takes 8 bytes and not 50:
 * the first sent bit in place 49, the last in place 0, places 50 to 63 zero. The
 * calls with `packed` in their names work on such numbers and answer in every
 * case as the calls on bytes do.
 *
 * No call keeps a pointer. A pointer must not be null, not even with length 0,
 * and must be valid for the length beside it; what is lent for writing must
 * not overlap anything else in the same call. Any length and any values of
 * bytes, numbers and fields are answered, if need be by a refusal.
 *
 * A caller has to be compiled with this header and not with an older one, since
 * lw_block and lw_counts have grown and calls about records take an edition.
 */
#ifndef LONGWAVE_H
#define LONGWAVE_H

#include <stddef.h>
#include <stdint.h>

/* The version that this header belongs to, 4.0.0: two digits each for the
 * second and the third part. lw_version answers that of the library. */
#define LW_VERSION 40000

#ifdef __cplusplus
extern "C" {
#endif

/* Why a call was refused. One list serves all calls; each call says below
 * which of these it gives, in the order in which it tests them. */
enum {
    LW_OK = 0,                /* not refused */
    LW_NOT_A_BIT = 1,         /* a bit is neither 0 nor 1 */
    LW_WRONG_LENGTH = 2,      /* a block slice is not 50 long */
    LW_WRONG_PREFIX = 3,      /* the prefix is 0 */
    LW_WRONG_CHECK_WORD = 4,  /* the check word is not the remainder */
    LW_NOT_A_RECORD = 5,      /* code not 0, or a filler, where a record is read */
    LW_OUT_OF_RANGE = 6,      /* an edition, polarity, field, code, month or day is out of
                                 range */
    LW_NOT_IN_YEAR = 7,       /* week 53 in a year without one */
    LW_WRONG_YEAR = 8,        /* the first of the 28 years, or the civil or coded year of a
                                 written date, is out of range */
    LW_RUN_TOO_LONG = 9,      /* a run is longer than 65,536 bits, or takes the bits that a
                                 watch was fed past 2^64 - 1 */
    LW_IMPROPER = 10,         /* the state, the watch or the report is not proper */
    LW_TOO_FEW_READINGS = 11, /* the radio board handed over fewer than 64 readings */
    LW_OUT_OF_DEGREES = 12,   /* a reading is not from -45 to 45, or the margin not from 0 to 90 */
    LW_EQUAL_PAIRINGS = 13,   /* both pairings have as many pairs of opposite sign */
    LW_NUMBER_TOO_WIDE = 14,  /* a number has a bit above place 49 */
    LW_NO_SUCH_CHANGE = 15,   /* no change within six neighbouring places makes the block good */
    LW_SEVERAL_CHANGES = 16,  /* more than one does; it never comes in fifty bits */
    LW_STRING_TOO_LONG = 17,  /* a string, or the second of two that are joined, is longer than
                                 65,536 bits */
    LW_NOT_A_REMAINDER = 18,  /* a remainder to be joined is above 8191 */
    LW_WRONG_SIZE = 19,       /* a frame is not 12 long, or a field to be written is too wide */
    LW_WRONG_FIXED_BITS = 20, /* a fixed bit of a frame is wrong */
    LW_NO_CODEWORD = 21,      /* no codeword differs from a frame's symbols in at most three */
    LW_WRONG_CRC = 22,        /* the CRC byte does not agree with the mended bytes */
    LW_WRONG_TRAILER = 23,    /* a journal's trailer does not fit */
    LW_NOT_RISING = 24,       /* the bit number of a wanted entry is not above the one before */
    LW_TOO_MANY_BLOCKS = 30,  /* a report would have more than 2^32 blocks */
    LW_NO_ROOM = 31           /* a slice is too short for the decided bits */
};

/* What was read; code and word are 0 where refused.
 *
 * A block refused with 4 tells by its remainder how it failed: this is what all
 * 50 bits, the first inverted, leave when they are divided by
 * x^13+x^12+x^11+x^10+x^7+x^6+x^5+x^4+x^2+1. It comes from the damage alone: the
 * same places changed leave the same remainder, whatever block was sent. */
typedef struct lw_block {
    uint8_t refusal;
    uint8_t code;
    uint32_t word;
    uint16_t remainder; /* with a 4: 1 to 8191, place 12 for x^12; else 0 */
} lw_block;

/* Reads a block from `len` bytes and answers its code and word, or with a 4 its
 * remainder. Refusals, in this order: 2, 1, 3, 4. The bytes stay as they are. */
lw_block lw_read_block(const uint8_t *bits, size_t len);

/* Writes the block of a code (0 to 15) and any word over all 50 bytes, whatever
 * they held. Answers 0, or a refusal, in this order: 2, 6; the bytes then stay
 * as they are. */
uint8_t lw_write_block(uint8_t code, uint32_t word, uint8_t *bits, size_t len);

/* Chooses between two aerials: 1 if the first holds a good block, else 2 if the
 * second does, else 0. Always sets `*number` and `*remainder`: to 0 with a block,
 * else to the refusal and the remainder that reading the first gives. The bytes
 * of both stay as they are. */
uint8_t lw_choose(const uint8_t *first, size_t first_len,
                  const uint8_t *second, size_t second_len,
                  uint8_t *number, uint16_t *remainder);

/* A block as one number; 0 where refused. */
typedef struct lw_packed {
    uint8_t refusal;
    uint64_t block;
} lw_packed;

/* Reads a block from a number and answers its code and word, or with a 4 its
 * remainder. Refusals, in this order: 14, 3, 4. */
lw_block lw_read_packed(uint64_t block);

/* Answers the block of a code (0 to 15) and any word as a number. Refusal: 6. */
lw_packed lw_write_packed(uint8_t code, uint32_t word);

/* Chooses between two aerials, as lw_choose does: 1, 2 or 0. Always sets
 * `*number` and `*remainder`: to 0 with a block, else to the refusal, 14, 3 or 4,
 * and the remainder that reading the first gives. */
uint8_t lw_choose_packed(uint64_t first, uint64_t second,
                         uint8_t *number, uint16_t *remainder);

/* Answers 50 bits as a number, whether they are a good block or not.
 * Refusals, in this order: 2, 1. The bytes stay as they are. */
lw_packed lw_pack(const uint8_t *bits, size_t len);

/* Writes the bits of a number over all 50 bytes, whatever they held, and whether
 * it is a good block or not. Answers 0, or a refusal, in this order: 2, 14; the
 * bytes then stay as they are. */
uint8_t lw_unpack(uint64_t block, uint8_t *bits, size_t len);

/* What mending changed; place and pattern are 0 where refused, and where the block
 * was good. */
typedef struct lw_mended {
    uint8_t refusal;
    uint8_t place;   /* the first changed place, from 0 (the prefix) to 49 */
    uint8_t pattern; /* the six places from there on, the first highest (32): 1 where changed,
                        0 where not and past the end of the block */
} lw_mended;

/* Mends a logged block where it stands, and answers what was changed. It is mended
 * exactly when one set of changes, all within six neighbouring places, makes it
 * good, and no other does; a good block is handed back as it is. Where the prefix
 * is 0, the change must begin with it.
 *
 * Every burst within six places is put right so, whatever block was sent. A longer
 * burst, or damage here and there, may be mended to another block than was sent, or
 * refused. Therefore no other call mends a block, neither reading nor the live feed.
 *
 * Refusals, in this order: 2, 1, 15, 16; the bytes then stay as they are. */
lw_mended lw_mend_block(uint8_t *bits, size_t len);

/* What a string of bits leaves when it is divided by the generator that lw_block
 * names, the first bit for the highest power of x and the last for x^0. No bit is
 * inverted and nothing is put behind them: a good block leaves 0 only when its
 * first bit is inverted before. */
typedef struct lw_remainder {
    uint8_t refusal;
    uint16_t remainder; /* 0 to 8191, place 12 for x^12; 0 where refused */
} lw_remainder;

/* Answers the remainder of up to 65,536 bits, first sent bit first; that of no
 * bits is 0. Refusals, in this order: 17, 1. The bytes stay as they are. */
lw_remainder lw_remainder_of(const uint8_t *bits, size_t len);

/* Answers the remainder of two strings, the second behind the first, from the
 * remainder of each and the second's `length` in bits, 0 to 65,536: it is what
 * first times x^length plus second leaves. The first, and so the whole, may be
 * longer. Whether a string of this length leaves `second` is not tested.
 * Refusals, in this order: 17, 18. */
lw_remainder lw_join(uint16_t first, uint16_t second, uint32_t length);

/* The edition of the specification that a sender follows. Every call that reads,
 * writes, dates or judges a record takes it as its first parameter; any other
 * number gets 6 before every other test, and a lent state then stays as it is.
 *
 *     leap code where         1984  1982
 *     the coded year is leap    0     3
 *     the year before was       1     2
 *     the next year is          3     1
 *     none of these is          2     0
 *
 * A block of code 0 is a filler and no record in 1984 where the first bit after
 * the code is set, in 1982 where the six bits after the code are all 0; in 1982 a
 * set first bit then gets 6. The start day is that of 1 January in both, and all
 * else is the same too. */
enum {
    LW_EDITION_1984 = 1984,
    LW_EDITION_1982 = 1982
};

/* What a time block says of the minute that begins with the first bit of the
 * next block. Time is UTC. The offset of local time is carried along with
 * records and dates, and never applied to them.
 *
 * Weeks are those of ISO 8601: Monday starts the week, and week 1 is the one that
 * holds 4 January. The coded year, of which leap code and start day speak, is the
 * week's; so up to three days of it lie in the civil year before, and up to three
 * in the one after. It has 53 weeks if it starts on a Thursday, or is leap and
 * starts on a Wednesday, else 52. */
typedef struct lw_record {
    uint8_t leap;      /* 0 to 3; the edition says what it means */
    uint8_t start_day; /* weekday of 1 January of the coded year, 1 (Monday) to 7 */
    uint8_t week;      /* 1 to 53 */
    uint8_t weekday;   /* 1 (Monday) to 7 */
    uint8_t hour;      /* 0 to 23 */
    uint8_t minute;    /* 0 to 59 */
    int8_t offset;     /* -32 to 31, in steps of half an hour */
} lw_record;

/* A date. Hour, minute and offset are those of its record. */
typedef struct lw_date {
    uint16_t year; /* the civil year, 1900 to 2100 */
    uint8_t month; /* 1 to 12 */
    uint8_t day;   /* 1 to the last of the month */
    uint8_t hour;
    uint8_t minute;
    int8_t offset;
} lw_date;

/* Answers about records and dates: all but the refusal is 0 where refused. */
typedef struct lw_word {
    uint8_t refusal;
    uint32_t word;
} lw_word;

typedef struct lw_recorded {
    uint8_t refusal;
    struct lw_record record;
} lw_recorded;

typedef struct lw_dated {
    uint8_t refusal;
    struct lw_date date;
} lw_dated;

/* Reads the record in a block's code and word. Whether its year has its week
 * is not tested.
 * Refusals, in this order: 6 for the edition, 5 for a code other than 0 or a
 * filler, 6 for a field out of range and in 1982 for a set first bit. */
lw_recorded lw_read_record(uint16_t edition, uint8_t code, uint32_t word);

/* Answers the word of a record, the same in both editions; its block has code 0.
 * Whether its year has its week is not tested.
 * Refusals, in this order: 6 for the edition, 6 for a field. */
lw_word lw_write_record(uint16_t edition, lw_record record);

/* Answers the date of a record. A record names no year: leap code and start day
 * fix one coded year of the 28 from `first_year` (1901 to 2072) on, in the other
 * edition another one. The date may lie in the civil year before or after it.
 * Refusals, in this order: 6 for the edition, 8, 6 for a field, 7. */
lw_dated lw_date_of_record(uint16_t edition, lw_record record, uint16_t first_year);

/* Answers the record of a date: every date of 1901 to 2099 has one, and so have
 * 31 December 1900 and 1 to 3 January 2100.
 * Refusals, in this order: 6 for the edition, 8 for a civil year outside 1900 to
 * 2100, 6, and 8 for a coded year outside 1901 to 2099. */
lw_recorded lw_record_of_date(uint16_t edition, lw_date date);

/* Answers the record of the next minute, with the same offset. The last minute of
 * a coded year is followed by week 1, weekday 1 of the next kind of year: leap
 * codes go 0, 1, 2, 3, 0 in 1984, and 3, 2, 0, 1, 3 in 1982.
 * Refusals, in this order: 6 for the edition, 6 for a field, 7. */
lw_recorded lw_next_minute(uint16_t edition, lw_record record);

/* What a receiver is doing. */
enum {
    LW_HUNTING = 0, /* judging the last 50 bits at every bit, until they are a good block */
    LW_TRYING = 1,  /* has one or two good blocks; a bad one makes it hunt again */
    LW_LOCKED = 2   /* had three good blocks in a row; four bad ones in a row lose the lock */
};

/* What is known of the time. */
enum {
    LW_NO_TIME = 0,
    LW_CANDIDATE = 1, /* a usable time block came */
    LW_CONFIRMED = 2  /* it came 30, 60, 90 or 120 blocks after the last one and tells
                         1, 2, 3 or 4 minutes more; the offset may differ */
};

/* A receiver's state. It belongs to the caller, who may copy it; all zeros are
 * a fresh one.
 *
 * A state is proper when every field has a value given here, the first `waiting`
 * of `bits` are 0 or 1, and whatever is not in use is 0: the other bits, and
 * with LW_NO_TIME the whole record and the age. Time is held only when locked,
 * and its record is usable: fields in range, and a week that its year has. Each
 * call judges this by the edition that it is given: a state that holds a week 53
 * under one may be improper (10) under the other.
 *
 * A time, candidate or confirmed, is held over three missed minutes, until 120
 * blocks have come since its record. The minute that begins now is that of the
 * record, and one more for every 30 blocks of its age. */
typedef struct lw_state {
    uint8_t mode;            /* LW_HUNTING, LW_TRYING or LW_LOCKED */
    uint8_t good;            /* trying: 1 or 2 good blocks so far; else 0 */
    uint8_t bad;             /* locked: 0 to 3 bad blocks in a row; else 0 */
    uint8_t waiting;         /* 0 to 49 bits wait to be judged */
    uint8_t bits[50];        /* these bits, oldest first */
    uint8_t time;            /* LW_NO_TIME, LW_CANDIDATE or LW_CONFIRMED */
    struct lw_record record; /* what the last usable time block told */
    uint8_t age;             /* 0 to 119 blocks since then */
} lw_state;

/* What a call did. Refused with 6, 9 or 10, all counts and the remainder are 0;
 * else waiting before + bits fed = 50 (good + bad) + passed + waiting.
 *
 * The remainder is that of the last bad block of this call that was refused with
 * 4, as lw_block tells it. A bad block behind it that was refused with 3 does not
 * clear it, and windows that are passed over while hunting are no bad blocks. */
typedef struct lw_counts {
    uint8_t refusal;
    uint32_t good;      /* good blocks, used up */
    uint32_t bad;       /* bad blocks, used up */
    uint32_t passed;    /* bits passed over while hunting */
    uint32_t waiting;   /* bits waiting at the end */
    uint16_t remainder; /* 1 to 8191, or 0 where no bad block was refused with 4 */
} lw_counts;

/* Answers a fresh state: hunting, with nothing waiting and no time. */
lw_state lw_fresh(void);

/* Feeds one bit, as a run of that bit alone.
 * Refusals, in this order: 6 for the edition, 10, 1; the state then stays as it
 * is. */
lw_counts lw_feed(uint16_t edition, lw_state *state, uint8_t bit);

/* Feeds up to 65,536 bits, first sent bit first.
 * Refusals, in this order: 6 for the edition, 9, 10, and the state then stays as
 * it is; or 1 at a bit that is none, and state, counts and remainder are then
 * those of the bits before it. */
lw_counts lw_run(uint16_t edition, lw_state *state, const uint8_t *bits, size_t len);

/* A receiver's state with the waiting bits in one number. It belongs to the
 * caller, who may copy it; all zeros are a fresh one. The bytes that the compiler
 * leaves between the fields do not matter.
 *
 * It is proper when the places of `bits` that are not in use are 0, above place
 * 49 and below the last waiting bit, and the rest is as in a proper lw_state. */
typedef struct lw_packed_state {
    uint8_t mode;            /* as in lw_state, here and where nothing is said below */
    uint8_t good;
    uint8_t bad;
    uint8_t waiting;         /* 0 to 49 bits wait to be judged */
    uint64_t bits;           /* these bits: the oldest in place 49, the next in place 48 */
    uint8_t time;
    struct lw_record record;
    uint8_t age;
} lw_packed_state;

/* Answers a fresh packed state: hunting, with nothing waiting and no time. */
lw_packed_state lw_fresh_packed(void);

/* Feeds one bit, as a run of that bit alone.
 * Refusals, in this order: 6 for the edition, 10, 1; the state then stays as it
 * is. */
lw_counts lw_feed_packed(uint16_t edition, lw_packed_state *state, uint8_t bit);

/* Feeds up to 65,536 bits, each still a byte, first sent bit first.
 * Refusals, in this order: 6 for the edition, 9, 10, and the state then stays as
 * it is; or 1 at a bit that is none, and state, counts and remainder are then
 * those of the bits before it. */
lw_counts lw_run_packed(uint16_t edition, lw_packed_state *state,
                        const uint8_t *bits, size_t len);

/* What became of the radio board's readings; zeros where refused. */
typedef struct lw_decided {
    uint8_t refusal;
    uint8_t pairing; /* 0 where the pairs start with the first reading, 1 with the second */
    uint64_t bits;   /* how many bits were written */
} lw_decided;

/* Decides bits from the half-bit readings of the radio board, in degrees, and writes
 * them to the front of `bits`, as lw_run takes them; the rest of `bits` stays as it is.
 *
 * Two readings that belong together are a first and a second half. The bit is 1 where
 * the first is greater and 0 where it is less; polarity 1 exchanges the two, polarity 0
 * does not. The bit is doubtful where the halves are equal or differ, after one rounding
 * to a float, by less than the margin: it is then written as 0 under either polarity.
 *
 * Which readings belong together is found from the first 64: of the 32 pairs that start
 * with the first reading and the 31 that start with the second, those are taken among
 * which more have opposite signs; zero has no sign. A reading left unpaired gives no
 * bit, so n readings give (n - pairing) / 2.
 *
 * Every reading has to be a number from -45 to 45, paired or not, and the margin one
 * from 0 to 90, all bounds included. The processor has to round to the nearest and to
 * keep subnormal numbers, as it does unless a program changes it; a program linked with
 * gcc's -ffast-math does.
 * Refusals, in this order: 6 for another polarity, 11, 12, 13, 31. */
lw_decided lw_decide(const float *readings, size_t len, float margin, uint8_t polarity,
                     uint8_t *bits, size_t bits_len);

/* A receiver with what is remembered of its history, so that it can be asked why
 * a dial is blank. It belongs to the caller, who may copy it; all zeros are a
 * fresh one. Bits count from 1: a bit is how many were fed with it.
 *
 * It is proper when its state is, under the edition of the call; when none of
 * `lost`, `dropped` and `displaced` is above `fed`; when `dropped` is 0 unless the
 * state is locked, and `displaced` is 0 unless its time is a candidate. */
typedef struct lw_watch {
    struct lw_packed_state state;
    uint64_t fed;       /* bits fed since the fresh watch */
    uint64_t lost;      /* the bit of the last loss of lock, or 0 */
    uint64_t dropped;   /* the bit of the last time dropped since the present lock, or 0: it
                           came to its last age while lock stayed */
    uint64_t displaced; /* the bit that ended the block of the held candidate, where that
                           displaced a held record, or 0 */
} lw_watch;

/* How the time stands. */
enum {
    LW_WHY_CONFIRMED = 1,       /* it is confirmed */
    LW_WHY_LOCK_LOST = 2,       /* not locked: lock was lost at the bit */
    LW_WHY_NEVER_LOCKED = 3,    /* not locked, and never was */
    LW_WHY_BLOCK_MISSING = 4,   /* locked, no time: it was dropped at the bit, since the
                                   expected block did not come */
    LW_WHY_NO_USABLE_BLOCK = 5, /* locked, no time: no usable block came since lock */
    LW_WHY_NOT_NEXT_MINUTE = 6, /* a candidate, whose block displaced a held record at the bit:
                                   it was not the next minute, nor two to four minutes later */
    LW_WHY_TOO_YOUNG = 7        /* a candidate, which nothing confirms yet */
};

typedef struct lw_standing {
    uint8_t refusal;
    uint8_t kind; /* one of these, or 0 where refused */
    uint64_t bit; /* with LW_WHY_LOCK_LOST, LW_WHY_BLOCK_MISSING and LW_WHY_NOT_NEXT_MINUTE;
                     else 0 */
} lw_standing;

/* Answers a fresh watch: a fresh state, and nothing fed. */
lw_watch lw_watch_fresh(void);

/* Feeds up to 65,536 bits to a watch, first sent bit first, and counts as
 * lw_run_packed does.
 * Refusals, in this order: 6 for the edition, 9, also where the length would take
 * `fed` past 2^64 - 1, whatever the bits are, 10, and the watch then stays as it
 * is; or 1 at a bit that is none, and watch, counts and remainder are then those
 * of the bits before it. */
lw_counts lw_watch_run(uint16_t edition, lw_watch *watch, const uint8_t *bits, size_t len);

/* Answers how the time stands.
 * Refusals, in this order: 6 for the edition, 10. */
lw_standing lw_why(uint16_t edition, lw_watch watch);

/* A journal of received blocks. It is bytes, all numbers big-endian: entries of 16
 * bytes each, which are a bit number in 8 and a block as one number in 8, as lw_pack
 * gives it; and as the last 16 bytes a trailer that points back, which is the offset
 * of the first entry still wanted in 8 and the number of wanted entries, which stand
 * one behind the other from there on, in 8.
 *
 * The trailer fits when the length is not 0, length and offset are multiples of 16,
 * and the wanted entries end at or before the trailer; else 23. The wanted entries
 * are looked at one after the other: a bit number that is not above the one before
 * gets 24, then a block with a bit above place 49 gets 14. What stands before them,
 * or between them and the trailer, may be anything. */
enum {
    LW_ENTRY = 16 /* the bytes of an entry, and of the trailer */
};

/* What compaction leaves. */
typedef struct lw_compacted {
    uint8_t refusal;
    uint64_t length; /* the bytes of the journal now, its trailer among them; 0 where refused */
} lw_compacted;

/* Compacts a journal where it stands: the wanted entries come to the front in their
 * order, behind them a trailer with offset 0, and all bytes behind that are 0. The
 * journal is `length` bytes long from then on, and the caller gives that length
 * wherever it is handed over: of the whole `len` the last 16 bytes may be zeros, and
 * would be the trailer of a journal in which nothing is wanted.
 * Refusals, in this order: 23, then 24 or 14 at the first bad wanted entry; the bytes
 * then stay as they are. */
lw_compacted lw_compact(uint8_t *journal, size_t len);

/* What is left of a journal without a trailer. */
typedef struct lw_salvaged {
    uint64_t kept; /* the bytes in the longest run of sound entries from the front */
    uint64_t rest; /* the bytes behind it */
} lw_salvaged;

/* Looks how much of a journal without a trailer can be used, as where the power
 * failed: the longest run from the front of whole entries whose bit numbers rise and
 * whose blocks have no bit above place 49. Nothing is written and nothing refused. A
 * trailer is an entry like any other here. */
lw_salvaged lw_salvage(const uint8_t *journal, size_t len);

/* A reception report: totals over many journals. It belongs to the caller, who may
 * copy it; all zeros are a fresh one.
 *
 * It is proper when `blocks` is at most 2^32, the codes add up to `good`, `good` is
 * at most `blocks` and `fillers` at most `codes[0]`. */
typedef struct lw_report {
    uint64_t blocks;    /* all blocks, 0 to 2^32 */
    uint64_t good;      /* of these the good ones */
    uint64_t fillers;   /* of these the fillers, which have code 0 */
    uint64_t codes[16]; /* the good ones of each code, the fillers among those of code 0 */
} lw_report;

/* Adds the wanted entries of a journal to a report. Which blocks are fillers is a
 * matter of the edition. Journals may come in any order, and their bit numbers need
 * not rise from one to the next.
 * Answers 0, or a refusal, in this order: 6 for the edition, 10, 23, then 24 or 14
 * at the first bad wanted entry, and 30; the report then stays as it is. Exactly
 * 2^32 blocks are taken. */
uint8_t lw_report_add(uint16_t edition, lw_report *report, const uint8_t *journal, size_t len);

/* Adds the totals of another report to a report: what several machines counted, each
 * from its own journals, becomes what one would have counted from all of them.
 * Answers 0, or a refusal, in this order: 10 for either, 30; the report then stays as
 * it is. Exactly 2^32 blocks are taken. */
uint8_t lw_report_join(lw_report *report, lw_report other);

/* Good blocks per thousand, as a quotient and what is left of the division. */
typedef struct lw_share {
    uint8_t refusal;
    uint64_t quotient;  /* 0 to 1000 */
    uint64_t remainder; /* below `blocks`: 1000 good = blocks * quotient + remainder */
} lw_share;

/* Answers how many blocks of a thousand were good; of no blocks, zeros.
 * Refusal: 10. */
lw_share lw_per_thousand(lw_report report);

/* What a Polish frame tells, the time signal on 225 kHz. The seven fields behind
 * the count are one bit each. Where two of them belong together, a table gives
 * their meaning; they make no number:
 *
 *     tz0 tz1  to be added for local time    sk0 sk1  the transmitter
 *      0   0   nothing                        0   0   works
 *      1   0   1 hour                         1   0   is to be off for a day
 *      0   1   2 hours                        0   1   for a week
 *      1   1   3 hours                        1   1   for longer
 */
typedef struct lw_polish {
    uint32_t periods; /* three-second periods since 1 January 2000, 0 to 1,073,741,823 */
    uint8_t tz0;      /* the offset of local time; never applied */
    uint8_t tz1;
    uint8_t ls;       /* 1: a leap second is announced */
    uint8_t lss;      /* its sign: 0 a second is added, 1 one is left out */
    uint8_t tzc;      /* 1: local time changes next Sunday at 1:00 UTC */
    uint8_t sk0;      /* the state of the transmitter */
    uint8_t sk1;
} lw_polish;

/* What was read; the time is all 0 where refused. */
typedef struct lw_polish_answer {
    uint8_t refusal;
    struct lw_polish time;
} lw_polish_answer;

/* Reads a Polish frame from `len` bytes. Its fifteen symbols of four bits, nine
 * from S0 to SK0 and six check symbols, are mended together exactly when a
 * codeword differs from them in at most three; there is never more than one. SK1
 * and the CRC byte are not among them and are never mended, and the CRC byte
 * must agree with the mended bytes.
 * Refusals, in this order: 19, 20, 21, 22. The bytes stay as they are. */
lw_polish_answer lw_read_polish(const uint8_t *frame, size_t len);

/* Writes the frame of a time over all 12 bytes, whatever they held. Answers 0,
 * or 19 where `len` is not 12, the count has more than 30 bits or another field
 * more than one; the bytes then stay as they are. */
uint8_t lw_write_polish(lw_polish time, uint8_t *frame, size_t len);

/* Answers the library's version, as LW_VERSION tells the header's. */
uint32_t lw_version(void);

#ifdef __cplusplus
}
#endif

#endif
