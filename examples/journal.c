/* A reception report of two journals. The first has entries that are no longer
 * wanted, and is compacted before it is kept. The second has lost its end with its
 * trailer, as where the power failed: it is salvaged and gets a new trailer. Then the
 * totals are joined with those that another machine counted. */
#include <inttypes.h>
#include <stdio.h>
#include <stdlib.h>

#include "longwave.h"
#include "reasons.h"

enum { ROOM = 8 /* entries, the trailer among them */ };

/* In 1984 a filler has code 0, and a word whose first bit is 1. */
#define FILLER 0x80000000

/* A block that came with this bit as its last, some places of it perhaps changed. */
typedef struct received {
    uint64_t bit;
    uint8_t code;
    uint32_t word;
    uint64_t changed;
} received;

static const received FIRST[] = {
    {50, 0, FILLER, 0},
    {100, 10, 0x00001234, 0},
    {150, 0, 0x4C16C882, 0}, /* the time, 1 January 1986, 12:34 */
    {200, 0, FILLER, 0},
    {250, 3, 0xCAFECAFE, UINT64_C(1) << 20},
};

static const received SECOND[] = {
    {1050, 0, FILLER, 0},
    {1100, 10, 0x00005678, 0},
    {1150, 0, FILLER, UINT64_C(3) << 7},
    {1200, 15, 0xFFFFFFFF, 0},
};

/* What the other machine counted. */
static const lw_report OTHER = {
    .blocks = 43200,
    .good = 43000,
    .fillers = 40000,
    .codes = { [0] = 41400, [10] = 1600 },
};

/* A journal that grows; `len` bytes of it are written. */
typedef struct journal {
    uint8_t bytes[ROOM * LW_ENTRY];
    size_t len;
} journal;

/* Says why and gives up where a call was refused. */
static void must_be_taken(const char *what, uint8_t refusal)
{
    if (refusal != LW_OK) {
        fprintf(stderr, "%s: refused with %d: %s\n", what, refusal, reason_of(refusal));
        exit(1);
    }
}

/* Appends a number, its highest byte first. */
static void append_number(journal *to, uint64_t number)
{
    for (int shift = 56; shift >= 0; shift -= 8) {
        to->bytes[to->len] = (uint8_t)(number >> shift);
        to->len++;
    }
}

/* Appends an entry, or the trailer. */
static void append(journal *to, uint64_t first, uint64_t second)
{
    if (sizeof to->bytes - to->len < LW_ENTRY) {
        fprintf(stderr, "expected at most %d entries with the trailer, got more\n", ROOM);
        exit(2);
    }
    append_number(to, first);
    append_number(to, second);
}

static void append_received(journal *to, const received *blocks, size_t count)
{
    for (size_t i = 0; i < count; i++) {
        lw_packed packed = lw_write_packed(blocks[i].code, blocks[i].word);
        must_be_taken("a block", packed.refusal);
        append(to, blocks[i].bit, packed.block ^ blocks[i].changed);
    }
}

static void add(const char *what, lw_report *report, const journal *added)
{
    must_be_taken(what, lw_report_add(LW_EDITION_1984, report, added->bytes, added->len));
}

/* All but the first two entries are wanted. */
static void add_first(lw_report *report)
{
    const uint64_t count = sizeof FIRST / sizeof FIRST[0];
    journal first = { .len = 0 };
    append_received(&first, FIRST, count);
    append(&first, 2 * LW_ENTRY, count - 2);

    lw_compacted compacted = lw_compact(first.bytes, first.len);
    must_be_taken("first journal", compacted.refusal);
    printf("first journal: %zu bytes, compacted to %" PRIu64 "\n", first.len, compacted.length);
    first.len = (size_t)compacted.length;
    add("first journal", report, &first);
}

/* Its trailer and five bytes of its last entry were lost. */
static void add_second(lw_report *report)
{
    journal second = { .len = 0 };
    append_received(&second, SECOND, sizeof SECOND / sizeof SECOND[0]);
    second.len -= 5;

    uint8_t refusal = lw_report_add(LW_EDITION_1984, report, second.bytes, second.len);
    printf("second journal: refused with %d: %s\n", refusal, reason_of(refusal));
    lw_salvaged salvaged = lw_salvage(second.bytes, second.len);
    printf("second journal: %zu bytes, %" PRIu64 " to be used and %" PRIu64 " behind them\n",
           second.len, salvaged.kept, salvaged.rest);
    second.len = (size_t)salvaged.kept;
    append(&second, 0, salvaged.kept / LW_ENTRY);
    add("second journal", report, &second);
}

static void show(const char *title, lw_report report)
{
    printf("%s: %" PRIu64 " blocks, %" PRIu64 " good, %" PRIu64 " fillers\n",
           title, report.blocks, report.good, report.fillers);
    for (int code = 0; code < 16; code++) {
        if (report.codes[code] != 0) {
            printf("code %d: %" PRIu64 "\n", code, report.codes[code]);
        }
    }
    lw_share share = lw_per_thousand(report);
    must_be_taken(title, share.refusal);
    printf("good per thousand: %" PRIu64 ", remainder %" PRIu64 " of %" PRIu64 " blocks\n",
           share.quotient, share.remainder, report.blocks);
}

int main(void)
{
    lw_report report = { .blocks = 0 };
    add_first(&report);
    add_second(&report);
    show("both journals", report);

    must_be_taken("the other machine", lw_report_join(&report, OTHER));
    show("with the other machine", report);
    return 0;
}
