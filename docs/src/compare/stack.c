/*
 * Measures the stack that each call of forest.h takes. A call runs on a stack of its own, painted before, with inputs
 * that lead deepest: the greatest values of each kind, a refusal by the last byte and one by a negative load, a buffer too
 * short, and nothing, by null pointers; and with a full species list, a bad one and none. A file is moved to every kind that can
 * be a target, and to one that cannot.
 */
#include "forest.h"

#include <stdio.h>
#include <string.h>
#include <ucontext.h>

enum { PAINT = 0xA5, RECORD = 109, FULL = 500 * RECORD, TEXT = 64000, SITE = 57, MONTHS = 204, LISTS = 3 };
/* Kind 54 has no field 11, and no carbon dioxide. */
enum { RECORD_54 = RECORD - 5, FULL_54 = 500 * RECORD_54, SITE_54 = SITE - 2 };
/* Kinds 52 and 53 have four bytes to an entry, and kind 52 has no field 10, and no temperature byte. */
enum { RECORD_53 = RECORD_54 - 4, FULL_53 = 500 * RECORD_53, SITE_53 = SITE_54 - 4 };
enum { RECORD_52 = RECORD_53 - 4, FULL_52 = 500 * RECORD_52, SITE_52 = SITE_53 - 1 };
/* The low byte of the ceiling in a record of kind 55 and in a site value. */
enum { CEILING = 87, CEILING_OF_SITE = 43 };
enum { FIRST = 256, LAST = 1023, ENTRY = 10, LIST = (LAST - FIRST + 1) * ENTRY };

#define NAME 'Z', 'Z', 'Z', 'Z', 'Z', 'Z', 'Z', 'Z'
#define STAND 5, 25, 0x4E, 0x20, 6, 25, 0x4E, 0x20, 7, 25, 0x4E, 0x20, 8, 25, 0x4E, 0x20
#define WIDE 0, 5, 25, 0x4E, 0x20, 0, 6, 25, 0x4E, 0x20, 0, 7, 25, 0x4E, 0x20, 0, 8, 25, 0x4E, 0x20
/* Species 256, 261, 1022 and 1023. */
#define LISTED 1, 0, 25, 0x4E, 0x20, 1, 5, 25, 0x4E, 0x20, 3, 0xFE, 25, 0x4E, 0x20, 3, 0xFF, 25, 0x4E, 0x20
#define FIELDS_01_TO_06                                                                                   \
    0x01, 0, 8, NAME, 0x02, 0, 1, 4, 0x03, 0, 2, 100, 0, 0x04, 0, 1, 200, 0x05, 0, 1, 5, 0x06, 0, 2, 0x0B, \
        0xB8
#define FIELDS_08_TO_0F                                                                                   \
    0x08, 0, 2, 0x01, 0xF4, 0x09, 0, 1, 85, 0x0A, 0, 2, 0x13, 0x88, 0x0B, 0, 2, 0x4E, 0x20, 0x0C, 0, 2,    \
        0x27, 0x10, 0x0D, 0, 2, 0x13, 0x88, 0x0E, 0, 2, 0x03, 0xE8, 0x0F, 0, 4, 0xFF, 0xFF, 0xFF, 0xFF

static const uint8_t record[RECORD] = {
    0x55, 0, 106, FIELDS_01_TO_06, 0x07, 0, 20, LISTED, FIELDS_08_TO_0F, 0x10, 0, 1, 25, 0x11, 0, 2, 0x13, 0x88,
};
static const uint8_t record_54[RECORD_54] = {
    0x54, 0, 101, FIELDS_01_TO_06, 0x07, 0, 20, LISTED, FIELDS_08_TO_0F, 0x10, 0, 1, 25,
};
/* One that can be moved to every target. */
static const uint8_t movable[RECORD_54] = {
    0x54, 0, 101, FIELDS_01_TO_06, 0x07, 0, 20, WIDE, FIELDS_08_TO_0F, 0x10, 0, 1, 13,
};
static const uint8_t record_53[RECORD_53] = {
    0x53, 0, 97, FIELDS_01_TO_06, 0x07, 0, 16, STAND, FIELDS_08_TO_0F, 0x10, 0, 1, 25,
};
/* Species 261, 518, 775 and 776 as kinds 54 and 55. */
static const uint8_t site[SITE] = {
    NAME, 8, 4, 100, 0, 200, 5, 0x0B, 0xB8, STAND, 4, 0x01, 0xF4, 85,
    0x13, 0x88, 0x4E, 0x20, 0x27, 0x10, 0x13, 0x88, 0x03, 0xE8, 0xFF, 0xFF, 0xFF, 0xFF, 25, 1, 2, 3, 3,
    0x13, 0x88,
};
static const uint8_t bad_site[SITE], months[MONTHS], bad_months[MONTHS] = {0xFF};
static uint8_t file[FULL + 1], file_54[FULL_54 + 1], movable_file[FULL_54], file_53[FULL_53], file_52[FULL_52];
/* The last record, and the site, have a ceiling at which more bicarbonate leaches than there is to lose. */
static uint8_t negative_file[FULL], negative_site[SITE], full_list[LIST], text[TEXT];
static uint64_t numbers[10];

struct input {
    const uint8_t *bytes;
    size_t length, room;
};
static const struct input files[] = {
    {file, FULL, TEXT}, {file_54, FULL_54, TEXT}, {file_53, FULL_53, TEXT}, {file_52, FULL_52, TEXT},
    {file, FULL + 1, TEXT}, {negative_file, FULL, TEXT}, {file, FULL, 0}, {NULL, 0, 0},
};
static const struct input records[] = {
    {file, RECORD, TEXT}, {file_54, RECORD_54, TEXT}, {file_53, RECORD_53, TEXT}, {file_52, RECORD_52, TEXT},
    {file, RECORD + 1, TEXT}, {negative_file + FULL - RECORD, RECORD, TEXT}, {file, RECORD, 0}, {NULL, 0, 0},
};
static const struct input moves[] = {
    {file, FULL, TEXT}, {file_54, FULL_54, TEXT}, {movable_file, FULL_54, TEXT}, {file_53, FULL_53, TEXT},
    {file_52, FULL_52, TEXT}, {file_54, FULL_54 + 1, TEXT}, {movable_file, FULL_54, 0}, {NULL, 0, 0},
};
static const struct input sites[] = {
    {site, SITE, 10}, {site, SITE_54, 10}, {site, SITE_53, 10}, {site, SITE_52, 10},
    {bad_site, SITE, 10}, {negative_site, SITE, 10}, {site, SITE, 0}, {NULL, 0, 0},
};
struct species {
    const uint8_t *bytes;
    size_t length;
};
static const struct species lists[LISTS] = {{full_list, LIST}, {full_list, LIST - 1}, {NULL, 0}};

static struct input in;
static struct species lent;
static uint8_t *bytes_out(void) { return in.room ? text : NULL; }
static uint64_t *numbers_out(void) { return in.room ? numbers : NULL; }

#define LENT lent.bytes, lent.length
static void list(void) { forest_list(in.bytes, in.length, LENT, bytes_out(), in.room); }
static void pages(void) { forest_pages(in.bytes, in.length, LENT, bytes_out(), in.room); }
static void report(void) { forest_report(in.bytes, in.length, LENT, bytes_out(), in.room); }
static void rewrite(void) { forest_rewrite(in.bytes, in.length, LENT, bytes_out(), in.room); }
static void convert(void) {
    static const uint8_t targets[] = {0x52, 0x53, 0x54, 0x55};
    for (size_t i = 0; i < sizeof targets; i++)
        forest_convert(in.bytes, in.length, LENT, targets[i], bytes_out(), in.room);
}
static void check(void) { forest_check(in.bytes, in.length, LENT); }
static void loads(void) { forest_loads(in.bytes, in.length, LENT, numbers_out(), in.room); }
static void level(void) { forest_level(in.bytes, in.length, LENT, numbers_out(), in.room); }
static void judge(void) { forest_judge(in.bytes, in.length, LENT, numbers_out(), in.room); }
static void sample(void) {
    forest_sample(in.bytes, in.length, LENT, months, MONTHS, numbers_out(), in.room);
    forest_sample(in.bytes, in.length, LENT, bad_months, MONTHS, numbers_out(), in.room);
    forest_sample(in.bytes, in.length, LENT, NULL, 0, numbers_out(), in.room);
}

/* How many bytes of a fresh stack a call has touched. */
static size_t stack_of(void (*call)(void)) {
    static _Alignas(16) uint8_t stack[1 << 20];
    static ucontext_t here, there;
    memset(stack, PAINT, sizeof stack);
    getcontext(&there);
    there.uc_stack.ss_sp = stack;
    there.uc_stack.ss_size = sizeof stack;
    there.uc_link = &here;
    makecontext(&there, call, 0);
    swapcontext(&here, &there);
    size_t untouched = 0;
    while (untouched < sizeof stack && stack[untouched] == PAINT)
        untouched++;
    return sizeof stack - untouched;
}

static void measure(const char *name, void (*call)(void), const struct input *inputs, size_t count) {
    size_t most = 0;
    for (size_t i = 0; i < count * LISTS; i++) {
        in = inputs[i / LISTS];
        lent = lists[i % LISTS];
        size_t took = stack_of(call);
        if (took > most)
            most = took;
    }
    printf("%-14s %7zu bytes, %3zu KiB\n", name, most, (most + 1023) / 1024);
}

#define MEASURE(call, inputs) measure("forest_" #call, call, inputs, sizeof inputs / sizeof *inputs)

int main(void) {
    for (size_t at = 0; at < FULL; at += RECORD)
        memcpy(file + at, record, RECORD);
    memcpy(negative_file, file, FULL);
    negative_file[FULL - RECORD + CEILING - 1] = 0, negative_file[FULL - RECORD + CEILING] = 1;
    memcpy(negative_site, site, SITE);
    negative_site[CEILING_OF_SITE - 1] = 0, negative_site[CEILING_OF_SITE] = 1;
    for (size_t at = 0; at < FULL_54; at += RECORD_54) {
        memcpy(file_54 + at, record_54, RECORD_54);
        memcpy(movable_file + at, movable, RECORD_54);
    }
    for (size_t at = 0; at < FULL_53; at += RECORD_53)
        memcpy(file_53 + at, record_53, RECORD_53);
    for (size_t at = 0; at < FULL_52; at += RECORD_52) {
        memcpy(file_52 + at, record_53, RECORD_52);
        file_52[at] = 0x52, file_52[at + 2] = RECORD_52 - 3;
    }
    memset(full_list, 0xFF, LIST);
    for (size_t number = FIRST; number <= LAST; number++) {
        uint8_t *entry = full_list + (number - FIRST) * ENTRY;
        entry[0] = number >> 8, entry[1] = number & 0xFF;
    }
    MEASURE(list, files);
    MEASURE(pages, files);
    MEASURE(report, files);
    MEASURE(rewrite, records);
    MEASURE(convert, moves);
    MEASURE(check, sites);
    MEASURE(loads, sites);
    MEASURE(level, sites);
    MEASURE(judge, sites);
    MEASURE(sample, sites);
}
