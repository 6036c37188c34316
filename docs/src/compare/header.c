/*
 * The calls of forest.h as C sees them, on the record A1, on this record in kinds 53, 54 and 55, and on A1 as a reserve: every
 * answer, every element of the lent buffer, and nothing, by null pointers. The last line is how many passed and failed.
 */
#include "forest.h"

#include <stdio.h>
#include <string.h>

#define FIELDS_02_TO_06 2, 0, 1, 1, 3, 0, 2, 10, 65, 4, 0, 1, 50, 5, 0, 1, 1, 6, 0, 2, 0, 200
#define FIELDS_08_TO_0E                                                                                                  \
    8, 0, 2, 0, 50, 9, 0, 1, 80, 10, 0, 2, 0x01, 0x2C, 11, 0, 2, 0x03, 0xE8, 12, 0, 2, 0x0B, 0xB8, 13, 0, 2, 0x03, 0xE8, \
        14, 0, 2, 0, 20
#define FIELDS_07_TO_0E 7, 0, 4, 0, 100, 0x07, 0xD0, FIELDS_08_TO_0E

static const uint8_t file[156] = {
    0x52, 0, 75, 1, 0, 2, 'A', '1', FIELDS_02_TO_06, FIELDS_07_TO_0E, 15, 0, 4, 0x01, 0xF4, 0x02, 0xBC,
    0x52, 0, 75, 1, 0, 2, 'B', '2', FIELDS_02_TO_06, FIELDS_07_TO_0E, 15, 0, 4, 0x00, 0xC8, 0x00, 0xF0,
};
/* A1 in kind 53, at 5 degrees below zero, before B2 in kind 52. */
static const uint8_t mixed[160] = {
    0x53, 0, 79, 1, 0, 2, 'A', '1', FIELDS_02_TO_06, FIELDS_07_TO_0E, 15, 0, 4, 0x01, 0xF4, 0x02, 0xBC, 16, 0, 1, 0,
    0x52, 0, 75, 1, 0, 2, 'B', '2', FIELDS_02_TO_06, FIELDS_07_TO_0E, 15, 0, 4, 0x00, 0xC8, 0x00, 0xF0,
};
/* A1 in kind 54, of species 513 at 8 degrees, before B2 in kind 52. */
static const uint8_t overseas[161] = {
    0x54, 0, 80, 1, 0, 2, 'A', '1', FIELDS_02_TO_06, 7, 0, 5, 2, 1, 100, 0x07, 0xD0, FIELDS_08_TO_0E,
    15, 0, 4, 0x01, 0xF4, 0x02, 0xBC, 16, 0, 1, 13,
    0x52, 0, 75, 1, 0, 2, 'B', '2', FIELDS_02_TO_06, FIELDS_07_TO_0E, 15, 0, 4, 0x00, 0xC8, 0x00, 0xF0,
};
/* A1 and B2 in kind 53, and in kind 54, at 8 degrees. */
static const uint8_t as_53[164] = {
    0x53, 0, 79, 1, 0, 2, 'A', '1', FIELDS_02_TO_06, FIELDS_07_TO_0E, 15, 0, 4, 0x01, 0xF4, 0x02, 0xBC, 16, 0, 1, 13,
    0x53, 0, 79, 1, 0, 2, 'B', '2', FIELDS_02_TO_06, FIELDS_07_TO_0E, 15, 0, 4, 0x00, 0xC8, 0x00, 0xF0, 16, 0, 1, 13,
};
static const uint8_t as_54[166] = {
    0x54, 0, 80, 1, 0, 2, 'A', '1', FIELDS_02_TO_06, 7, 0, 5, 0, 0, 100, 0x07, 0xD0, FIELDS_08_TO_0E,
    15, 0, 4, 0x01, 0xF4, 0x02, 0xBC, 16, 0, 1, 13,
    0x54, 0, 80, 1, 0, 2, 'B', '2', FIELDS_02_TO_06, 7, 0, 5, 0, 0, 100, 0x07, 0xD0, FIELDS_08_TO_0E,
    15, 0, 4, 0x00, 0xC8, 0x00, 0xF0, 16, 0, 1, 13,
};
/* A1 in kind 55, at 8 degrees with P 5000, before B2 in kind 52. */
static const uint8_t near_neutral[166] = {
    0x55, 0, 85, 1, 0, 2, 'A', '1', FIELDS_02_TO_06, 7, 0, 5, 0, 0, 100, 0x07, 0xD0, FIELDS_08_TO_0E,
    15, 0, 4, 0x01, 0xF4, 0x02, 0xBC, 16, 0, 1, 13, 17, 0, 2, 0x13, 0x88,
    0x52, 0, 75, 1, 0, 2, 'B', '2', FIELDS_02_TO_06, FIELDS_07_TO_0E, 15, 0, 4, 0x00, 0xC8, 0x00, 0xF0,
};
/* A1 as a reserve in each kind, at 8 degrees: field 07 has no value. */
#define RESERVE_TO_0F 1, 0, 2, 'A', '1', FIELDS_02_TO_06, 7, 0, 0, FIELDS_08_TO_0E, 15, 0, 4, 0x01, 0xF4, 0x02, 0xBC
static const uint8_t reserve_52[74] = {0x52, 0, 71, RESERVE_TO_0F};
static const uint8_t reserve_53[78] = {0x53, 0, 75, RESERVE_TO_0F, 16, 0, 1, 13};
static const uint8_t reserve_54[78] = {0x54, 0, 75, RESERVE_TO_0F, 16, 0, 1, 13};
static const uint8_t reserve_55[83] = {0x55, 0, 80, RESERVE_TO_0F, 16, 0, 1, 13, 17, 0, 2, 0x13, 0x88};
/* Species 256, 513 and 1023 with their Ca, Mg, K and N: 5389 1980 1660 7782 as pine; 10000 2000 3000 12000; 65535 each. */
static const uint8_t list[30] = {
    1, 0, 0x15, 0x0D, 0x07, 0xBC, 0x06, 0x7C, 0x1E, 0x66,
    2, 1, 0x27, 0x10, 0x07, 0xD0, 0x0B, 0xB8, 0x2E, 0xE0,
    3, 0xFF, 0xFF, 0xFF, 0xFF, 0xFF, 0xFF, 0xFF, 0xFF, 0xFF,
};
#define LENT list, sizeof list
#define NONE NULL, 0
enum { RECORD = 78, RECORD_53 = 82, RECORD_54 = 83, RECORD_55 = 88, STAND = 30, ENTRY = 10 };
enum { SITE = 50, SITE_53 = 51, SITE_54 = 55, SITE_55 = 57 };
enum { MONTH = 17, MONTHS = 204, ROOM = 300, SPARE = 0xA5 };
/* In A1: the species of kind 54, and field 10. In a reserve: field 08, and field 10. In a site value: the count of entries. */
enum { SPECIES_54 = STAND + 3, TEMPERATURE_53 = RECORD_53 - 4, TEMPERATURE_54 = RECORD_54 - 4 };
enum { AFTER_STAND = STAND + 3, TEMPERATURE_OF_RESERVE = sizeof reserve_52, COUNT = 32 };
/* In A1 of kind 55: field 11, and the low byte of the ceiling of field 0D. In a site value: that byte. */
enum { GAS = RECORD_55 - 5, CEILING_55 = 66, CEILING_OF_RESERVE = 61, CEILING = 43 };

/* The longest listing and record that documents 01 and 02 let be are within what the header gives; 500 sites are on 9 pages. */
_Static_assert(FOREST_MOST_TEXT >= 51 + 500 * (8 + 7 * 8 + 7 + 1) && FOREST_MOST_RECORD >= 109, "forest.h: too short");
_Static_assert(FOREST_MOST_PAGES == (9 + 500) * (64 + 1), "forest.h: all pages");
_Static_assert(FOREST_MOST_CONVERTED == 500 * 104, "forest.h: a full file of the longest records");

static const uint8_t site[SITE] = {
    'A', '1', 0, 0, 0, 0, 0, 0, 2, 1, 10, 65, 50, 1, 0, 200, 0, 100, 0x07, 0xD0, 0, 0, 0, 0, 0, 0, 0, 0, 0, 0, 0, 0, 1,
    0, 50, 80, 0x01, 0x2C, 0x03, 0xE8, 0x0B, 0xB8, 0x03, 0xE8, 0, 20, 0x01, 0xF4, 0x02, 0xBC,
};

/* The first two months, with the floats 0.5, 0.25, 0.375 and 0.0078125; the other ten are dry. They give the pair 500, 700. */
static const uint8_t months[MONTHS] = {
    0x03, 0xE8, 0, 0x3F, 0, 0, 0, 0, 0x3F, 0, 0, 0, 0, 0x3E, 0x80, 0, 0,
    0x02, 0x58, 1, 0x3F, 0, 0, 0, 0, 0x3E, 0xC0, 0, 0, 1, 0x3C, 0, 0, 0,
};

static const char listing[] = "id maxS minN maxN nutN region acidEx nutEx verdict\n"
                              "A1 735 205 1021 249 2 221 451 over\n"
                              "B2 735 205 1021 249 0 0 0 within\n";

static const char page[] = "id          maxS    minN    maxN    nutNre acidEx  nutExverdict \n"
                           "A1           735     205    1021     249 2    221    451   over \n"
                           "B2           735     205    1021     249 0      0      0 within \n";

/* There t is 537, so that W is 67, w 53, Bu 181, A 258, h 755, M 151 + 258, and v 350,500. */
static const char mixed_listing[] = "id maxS minN maxN nutN region acidEx nutEx verdict\n"
                                    "A1 595 205 866 249 2 368 451 over\n"
                                    "B2 735 205 1021 249 0 0 0 within\n";

static const char mixed_page[] = "id          maxS    minN    maxN    nutNre acidEx  nutExverdict \n"
                                 "A1           595     205     866     249 2    368    451   over \n"
                                 "B2           735     205    1021     249 0      0      0 within \n";

/* For species 513 Nu is 240, Bu 300, A 150, h 631, M 126 + 150, and v 468,000. */
static const char overseas_listing[] = "id maxS minN maxN nutN region acidEx nutEx verdict\n"
                                       "A1 401 290 735 334 2 492 366 over\n"
                                       "B2 735 205 1021 249 0 0 0 within\n";

static const char overseas_page[] = "id          maxS    minN    maxN    nutNre acidEx  nutExverdict \n"
                                    "A1           401     290     735     334 2    492    366   over \n"
                                    "B2           735     205    1021     249 0      0      0 within \n";

/* At h 818 200 * 5000 / (50 * 818) up is 25, so that M is 491 - 25, and v 235,500. */
static const char near_neutral_listing[] = "id maxS minN maxN nutN region acidEx nutEx verdict\n"
                                           "A1 710 205 993 249 2 248 451 over\n"
                                           "B2 735 205 1021 249 0 0 0 within\n";

static const char near_neutral_page[] = "id          maxS    minN    maxN    nutNre acidEx  nutExverdict \n"
                                        "A1           710     205     993     249 2    248    451   over \n"
                                        "B2           735     205    1021     249 0      0      0 within \n";

/* The reserve between A1 and B2. W is 125, w 100, Nu and Bu 0, A 1500 * 400 / 1000, which al(1000) is too, M 200 + 600, L 40;
 * 1,225,000 / 900 is 1361.1, and 40,000 / 900 is 44.4. 500,000 + 900 * 650 is below 1,225,000, and 700 - 94 is 606. */
static const char reserve_listing[] = "id maxS minN maxN nutN region acidEx nutEx verdict\n"
                                      "A1 735 205 1021 249 2 221 451 over\n"
                                      "A1 1225 50 1411 94 0 0 606 over\n"
                                      "B2 735 205 1021 249 0 0 0 within\n";

static const char reserve_page[] = "id          maxS    minN    maxN    nutNre acidEx  nutExverdict \n"
                                   "A1           735     205    1021     249 2    221    451   over \n"
                                   "A1          1225      50    1411      94 0      0    606   over \n"
                                   "B2           735     205    1021     249 0      0      0 within \n";

static unsigned passed, failed;

static void expect(const char *what, int holds) {
    if (holds) {
        passed++;
    } else {
        failed++;
        printf("forest.h: %s\n", what);
    }
}

static uint64_t refusal(uint64_t rule, uint64_t offset) { return (rule << 32) + offset; }

/* The lent buffers, every byte of them spare before a call. */
static uint8_t text[ROOM];
static uint64_t numbers[11];

static void lend(void) {
    memset(text, SPARE, sizeof text);
    memset(numbers, SPARE, sizeof numbers);
}

static int spare_from(const void *buffer, size_t from, size_t size) {
    for (size_t i = from; i < size; i++)
        if (((const uint8_t *)buffer)[i] != SPARE)
            return 0;
    return 1;
}

/* The answer, then the buffer: `bytes` of them as given and the rest as before. */
static void expect_text(const char *what, uint64_t answer, uint64_t expected, const void *given, size_t bytes) {
    expect(what, answer == expected && memcmp(text, given, bytes) == 0 && spare_from(text, bytes, sizeof text));
    lend();
}

static void expect_numbers(const char *what, uint64_t answer, uint64_t expected, const uint64_t *given, size_t count) {
    size_t bytes = count * sizeof *given;
    expect(what, answer == expected && memcmp(numbers, given, bytes) == 0 && spare_from(numbers, bytes, sizeof numbers));
    lend();
}

/* Kind 54, the species list, and the refusals 15 and 16. */
static void overseas_calls(const uint64_t *judged) {
    const size_t length = sizeof overseas_listing - 1, page_length = sizeof overseas_page - 1;
    expect_text("kind 54", forest_list(overseas, sizeof overseas, LENT, text, length), length, overseas_listing, length);
    expect_text("kind 54 does not fit", forest_list(overseas, sizeof overseas, LENT, text, length - 1), refusal(11, 0), "", 0);
    expect_text("kind 54 reported", forest_report(overseas, sizeof overseas, LENT, text, ROOM), length, overseas_listing,
                length);
    expect_text("a page with kind 54", forest_pages(overseas, sizeof overseas, LENT, text, ROOM), page_length, overseas_page,
                page_length);
    expect_text("kind 54 again", forest_rewrite(overseas, RECORD_54, LENT, text, RECORD_54), RECORD_54, overseas, RECORD_54);
    expect_text("kind 54 in 82 bytes", forest_rewrite(overseas, RECORD_54, LENT, text, RECORD_54 - 1), refusal(11, 0), "", 0);
    expect_text("kind 52, an empty list", forest_list(file, sizeof file, NONE, text, ROOM), sizeof listing - 1, listing,
                sizeof listing - 1);

    /* A1 in 55 bytes. */
    static const uint64_t listed[10] = {500, 700, 401, 290, 735, 334, 2, 492, 366, 1}, searched[2] = {631, 11};
    uint8_t site_54[SITE_54 + 1] = {0};
    memcpy(site_54, site, SITE);
    site_54[16] = 1, site_54[50] = 13, site_54[51] = 2;
    expect("a site of 55 bytes", forest_check(site_54, SITE_54, LENT) == 0);
    expect_numbers("loads of species 513", forest_loads(site_54, SITE_54, LENT, numbers, 4), 4, listed + 2, 4);
    expect_numbers("a level of species 513", forest_level(site_54, SITE_54, LENT, numbers, 2), 2, searched, 2);
    expect_numbers("a judgement of species 513", forest_judge(site_54, SITE_54, LENT, numbers, 8), 8, listed + 2, 8);
    expect_numbers("a year of species 513", forest_sample(site_54, SITE_54, LENT, months, MONTHS, numbers, 10), 10, listed, 10);
    expect("a site of 54 bytes", forest_check(site_54, SITE_54 - 1, LENT) == refusal(7, 0));
    expect("a site of 56 bytes", forest_check(site_54, SITE_54 + 1, LENT) == refusal(7, 0));
    expect_numbers("loads of 54 bytes", forest_loads(site_54, SITE_54 - 1, LENT, numbers, 4), refusal(7, 0), listed, 0);
    expect_numbers("a level of 54 bytes", forest_level(site_54, SITE_54 - 1, LENT, numbers, 2), refusal(7, 0), listed, 0);
    expect_numbers("a judgement of 54 bytes", forest_judge(site_54, SITE_54 - 1, LENT, numbers, 8), refusal(7, 0), listed, 0);
    expect_numbers("a year of 56 bytes", forest_sample(site_54, SITE_54 + 1, LENT, months, MONTHS, numbers, 10), refusal(7, 0),
                   listed, 0);

    /* Pine's contents by the list; spruce's, whatever the list: Nu 174, Bu 210, A 285, h 781, M 156 + 285. */
    static const uint64_t of_spruce[4] = {656, 224, 952, 268};
    site_54[16] = 0, site_54[51] = 1;
    expect_numbers("a judgement of species 256", forest_judge(site_54, SITE_54, LENT, numbers, 8), 8, judged, 8);
    site_54[16] = 1, site_54[51] = 0;
    expect_numbers("loads of species 1", forest_loads(site_54, SITE_54, LENT, numbers, 4), 4, of_spruce, 4);
    expect_numbers("species 1, an empty list", forest_loads(site_54, SITE_54, NONE, numbers, 4), 4, of_spruce, 4);
    /* Nu is 1310, and the demand 3933 beside 380 for Bu: A 30, h 372, M 74 + 30. */
    static const uint64_t of_the_greatest[4] = {149, 1360, 1525, 1404};
    site_54[16] = 0xFF, site_54[51] = 3;
    expect_numbers("loads of species 1023", forest_loads(site_54, SITE_54, LENT, numbers, 4), 4, of_the_greatest, 4);
    site_54[16] = 9, site_54[51] = 0;
    expect("species 9", forest_check(site_54, SITE_54, LENT) == refusal(8, 0));
    site_54[16] = 0, site_54[51] = 4;
    expect("species 1024", forest_check(site_54, SITE_54, LENT) == refusal(8, 0));

    /* 16: species 514 is not in the list, and an empty list has none. */
    uint8_t lacking[sizeof overseas];
    memcpy(lacking, overseas, sizeof overseas);
    lacking[STAND + 4] = 2;
    expect_text("16 of a file", forest_list(lacking, sizeof lacking, LENT, text, ROOM), refusal(16, STAND), "", 0);
    expect_text("16 of pages", forest_pages(lacking, sizeof lacking, LENT, text, ROOM), refusal(16, STAND), "", 0);
    expect_text("16 reported", forest_report(lacking, sizeof lacking, LENT, text, ROOM), 17, "refused 16 at 30\n", 17);
    expect_text("16 of a record", forest_rewrite(lacking, RECORD_54, LENT, text, ROOM), refusal(16, STAND), "", 0);
    expect_text("16 by an empty list", forest_rewrite(overseas, RECORD_54, NONE, text, ROOM), refusal(16, STAND), "", 0);
    lacking[STAND + 11] = 0xFF;
    expect_text("16 ahead of field 08", forest_list(lacking, sizeof lacking, LENT, text, ROOM), refusal(16, STAND), "", 0);
    lacking[STAND + 5] = 99;
    expect_text("16 after 10", forest_list(lacking, sizeof lacking, LENT, text, ROOM), refusal(10, STAND), "", 0);
    site_54[16] = 2, site_54[51] = 2;
    expect("16 of a site", forest_check(site_54, SITE_54, LENT) == refusal(16, 0));
    expect_numbers("16 of loads", forest_loads(site_54, SITE_54, LENT, numbers, 4), refusal(16, 0), listed, 0);
    expect_numbers("16 of a level", forest_level(site_54, SITE_54, LENT, numbers, 2), refusal(16, 0), listed, 0);
    expect_numbers("16 of a judgement", forest_judge(site_54, SITE_54, LENT, numbers, 8), refusal(16, 0), listed, 0);
    expect_numbers("16 of a year", forest_sample(site_54, SITE_54, LENT, NULL, 0, numbers, 10), refusal(16, 0), listed, 0);

    /* 15: the second entry has the first one's number. */
    uint8_t bad[sizeof list];
    memcpy(bad, list, sizeof list);
    bad[ENTRY] = 1, bad[ENTRY + 1] = 0;
#define BAD bad, sizeof bad
    expect_text("15 of a file", forest_list(file, sizeof file, BAD, text, ROOM), refusal(15, ENTRY), "", 0);
    expect_text("15 of pages", forest_pages(file, sizeof file, BAD, text, ROOM), refusal(15, ENTRY), "", 0);
    expect_text("15 reported", forest_report(file, sizeof file, BAD, text, ROOM), 17, "refused 15 at 10\n", 17);
    expect_text("15 in 16 bytes", forest_report(file, sizeof file, BAD, text, 16), refusal(11, 0), "", 0);
    expect_text("15 of a record", forest_rewrite(file, RECORD, BAD, text, ROOM), refusal(15, ENTRY), "", 0);
    expect_text("15 ahead of 1", forest_list(NULL, 0, BAD, NULL, 0), refusal(15, ENTRY), "", 0);
    expect_text("pages: 15 ahead of 1", forest_pages(NULL, 0, BAD, NULL, 0), refusal(15, ENTRY), "", 0);
    expect_text("no record: 15 ahead of 1", forest_rewrite(NULL, 0, BAD, NULL, 0), refusal(15, ENTRY), "", 0);
    expect("15 of a site", forest_check(site, SITE, BAD) == refusal(15, ENTRY));
    expect("15 ahead of 7", forest_check(NULL, 0, BAD) == refusal(15, ENTRY));
    expect_numbers("15 of loads", forest_loads(NULL, 0, BAD, numbers, 4), refusal(15, ENTRY), listed, 0);
    expect_numbers("15 of a level", forest_level(NULL, 0, BAD, numbers, 2), refusal(15, ENTRY), listed, 0);
    expect_numbers("15 of a judgement", forest_judge(NULL, 0, BAD, numbers, 8), refusal(15, ENTRY), listed, 0);
    expect_numbers("15 of a year", forest_sample(NULL, 0, BAD, NULL, 0, numbers, 10), refusal(15, ENTRY), listed, 0);
    expect("29 bytes of a list", forest_check(site, SITE, list, sizeof list - 1) == refusal(15, 2 * ENTRY));
    expect("a byte of a list", forest_check(site, SITE, list, 1) == refusal(15, 0));
    memcpy(bad, list, sizeof list);
    bad[0] = 0, bad[1] = 0xFF;
    expect("a list from 255 on", forest_check(site, SITE, BAD) == refusal(15, 0));
    memcpy(bad, list, sizeof list);
    bad[2 * ENTRY] = 4, bad[2 * ENTRY + 1] = 0;
    expect("a list up to 1024", forest_check(site, SITE, BAD) == refusal(15, 2 * ENTRY));
}

/* A file in the lent buffer, all of it or none. */
static void expect_moved(const char *what, const uint8_t *from, size_t length, uint8_t target, const uint8_t *to,
                         size_t moved) {
    expect_text(what, forest_convert(from, length, LENT, target, text, moved), moved, to, moved);
    expect_text(what, forest_convert(from, length, LENT, target, text, ROOM), moved, to, moved);
    expect_text(what, forest_convert(from, length, LENT, target, text, moved - 1), refusal(11, 0), "", 0);
    expect_text(what, forest_convert(from, length, NONE, target, NULL, 0), refusal(11, 0), "", 0);
}

/* A refusal, with room and without. */
static void expect_stuck(const char *what, const uint8_t *from, size_t length, uint8_t target, uint64_t rule, uint64_t offset) {
    expect_text(what, forest_convert(from, length, LENT, target, text, ROOM), refusal(rule, offset), "", 0);
    expect_text(what, forest_convert(from, length, LENT, target, NULL, 0), refusal(rule, offset), "", 0);
}

/* Conversion, and the refusal 17. */
static void convert_calls(void) {
    expect_moved("52 to 53", file, sizeof file, 0x53, as_53, sizeof as_53);
    expect_moved("52 to 54", file, sizeof file, 0x54, as_54, sizeof as_54);
    expect_moved("53 to 54", as_53, sizeof as_53, 0x54, as_54, sizeof as_54);
    expect_moved("54 to 53", as_54, sizeof as_54, 0x53, as_53, sizeof as_53);
    expect_moved("53 to 52", as_53, sizeof as_53, 0x52, file, sizeof file);
    expect_moved("54 to 52", as_54, sizeof as_54, 0x52, file, sizeof file);
    expect_moved("52 to 52", file, sizeof file, 0x52, file, sizeof file);
    expect_moved("53 to 53", as_53, sizeof as_53, 0x53, as_53, sizeof as_53);
    expect_moved("54 to 54", as_54, sizeof as_54, 0x54, as_54, sizeof as_54);

    /* Files of two kinds: a temperature stays with its record, and so does a species of the list. */
    uint8_t cold_53[sizeof as_53], cold_54[sizeof as_54], listed[sizeof as_54];
    memcpy(cold_53, as_53, sizeof as_53);
    memcpy(cold_54, as_54, sizeof as_54);
    memcpy(listed, as_54, sizeof as_54);
    cold_53[TEMPERATURE_53 + 3] = cold_54[TEMPERATURE_54 + 3] = 0;
    listed[SPECIES_54] = 2, listed[SPECIES_54 + 1] = 1;
    expect_moved("both kinds to 53", mixed, sizeof mixed, 0x53, cold_53, sizeof cold_53);
    expect_moved("both kinds to 54", mixed, sizeof mixed, 0x54, cold_54, sizeof cold_54);
    expect_moved("back from 54", cold_54, sizeof cold_54, 0x53, cold_53, sizeof cold_53);
    expect_text("species 513 to 54", forest_convert(overseas, sizeof overseas, LENT, 0x54, text, ROOM), sizeof listed, listed,
                sizeof listed);

    /* 17: at field 10, at field 07, at field 07 where 10 is in the way too, at the first of two records, at the second. */
    expect_stuck("-5 degrees to 52", mixed, sizeof mixed, 0x52, 17, TEMPERATURE_53);
    expect_stuck("-5 degrees from 54 to 52", cold_54, sizeof cold_54, 0x52, 17, TEMPERATURE_54);
    expect_stuck("species 513 to 52", overseas, sizeof overseas, 0x52, 17, STAND);
    expect_stuck("species 513 to 53", overseas, sizeof overseas, 0x53, 17, STAND);
    listed[TEMPERATURE_54 + 3] = 12;
    expect_stuck("species 513 at 7 degrees", listed, sizeof listed, 0x52, 17, STAND);
    cold_53[RECORD_53 + TEMPERATURE_53 + 3] = 14;
    expect_stuck("A1 and B2 to 52", cold_53, sizeof cold_53, 0x52, 17, TEMPERATURE_53);
    cold_53[TEMPERATURE_53 + 3] = 13;
    expect_stuck("B2 at 9 degrees", cold_53, sizeof cold_53, 0x52, 17, RECORD_53 + TEMPERATURE_53);

    /* Ahead of 17: every fault of the file, and the list. */
    expect_stuck("17 after 2", mixed, sizeof mixed - 1, 0x52, 2, RECORD_53);
    listed[RECORD_54] = 0x55;
    expect_stuck("17 after 3", listed, sizeof listed, 0x53, 3, RECORD_54);
    listed[TEMPERATURE_54 + 3] = 26;
    expect_stuck("17 after 8", listed, sizeof listed, 0x53, 8, TEMPERATURE_54);
    listed[SPECIES_54 + 1] = 2;
    expect_stuck("17 after 16", listed, sizeof listed, 0x53, 16, STAND);
    expect_stuck("nothing to 52", NULL, 0, 0x52, 1, 0);
    expect_text("15 ahead of 17", forest_convert(mixed, sizeof mixed, list, sizeof list - 1, 0x52, text, ROOM),
                refusal(15, 2 * ENTRY), "", 0);
    expect_text("15 of a target", forest_convert(NULL, 0, list, sizeof list - 1, 0x54, NULL, 0), refusal(15, 2 * ENTRY), "", 0);

    /* 3 ahead of all. */
    static const uint8_t others[] = {0, 52, 53, 54, 0x51, 0x55, 0xFF};
    for (size_t i = 0; i < sizeof others; i++) {
        expect_stuck("another target", file, sizeof file, others[i], 3, 0);
        expect_stuck("another target, 17", mixed, sizeof mixed, others[i], 3, 0);
        expect_stuck("another target, nothing", NULL, 0, others[i], 3, 0);
        expect_text("another target, 15", forest_convert(NULL, 0, list, sizeof list - 1, others[i], NULL, 0), refusal(3, 0), "",
                    0);
    }
}

/* A reserve between the two records of a file, of which the first has so many bytes. Returns the bytes of all three. */
static size_t enter_reserve(uint8_t *to, const uint8_t *two, size_t length, size_t first, const uint8_t *reserve,
                            size_t reserve_length) {
    memcpy(to, two, first);
    memcpy(to + first, reserve, reserve_length);
    memcpy(to + first + reserve_length, two + first, length - first);
    return length + reserve_length;
}

/* Reserves in files and as records, in every kind. */
static void reserve_file_calls(void) {
    const size_t length = sizeof reserve_listing - 1, page_length = sizeof reserve_page - 1;
    static const uint8_t tags[3] = {0x52, 0x53, 0x54}, *const reserves[3] = {reserve_52, reserve_53, reserve_54};
    static const size_t reserve_lengths[3] = {sizeof reserve_52, sizeof reserve_53, sizeof reserve_54};
    uint8_t files[3][ROOM];
    const size_t file_lengths[3] = {
        enter_reserve(files[0], file, sizeof file, RECORD, reserve_52, sizeof reserve_52),
        enter_reserve(files[1], as_53, sizeof as_53, RECORD_53, reserve_53, sizeof reserve_53),
        enter_reserve(files[2], as_54, sizeof as_54, RECORD_54, reserve_54, sizeof reserve_54),
    };
    for (size_t i = 0; i < 3; i++) {
        const uint8_t *among = files[i], *reserve = reserves[i];
        const size_t among_length = file_lengths[i], reserve_length = reserve_lengths[i];
        expect_text("a reserve listed", forest_list(among, among_length, LENT, text, length), length, reserve_listing, length);
        expect_text("a reserve does not fit", forest_list(among, among_length, LENT, text, length - 1), refusal(11, 0), "", 0);
        expect_text("a reserve on a page", forest_pages(among, among_length, LENT, text, page_length), page_length,
                    reserve_page, page_length);
        expect_text("a reserve reported", forest_report(among, among_length, NONE, text, ROOM), length, reserve_listing,
                    length);
        expect_text("a reserve again", forest_rewrite(reserve, reserve_length, LENT, text, reserve_length), reserve_length,
                    reserve, reserve_length);
        expect_text("a reserve again, an empty list", forest_rewrite(reserve, reserve_length, NONE, text, ROOM),
                    reserve_length, reserve, reserve_length);
        expect_text("a reserve and a byte less", forest_rewrite(reserve, reserve_length, LENT, text, reserve_length - 1),
                    refusal(11, 0), "", 0);
        expect_text("a reserve, 15", forest_rewrite(reserve, reserve_length, list, sizeof list - 1, text, ROOM),
                    refusal(15, 2 * ENTRY), "", 0);
        for (size_t to = 0; to < 3; to++) {
            expect_moved("a reserve moved", reserve, reserve_length, tags[to], reserves[to], reserve_lengths[to]);
            expect_moved("a reserve moved between stands", among, among_length, tags[to], files[to], file_lengths[to]);
        }

        /* A stand of a byte, and of a byte less than an entry; no name; field 08 above 500; nothing after field 07. */
        uint8_t bad[sizeof reserve_53 + 4];
        for (size_t more = 1; more < (i < 2 ? 4 : 5); more++) {
            memcpy(bad, reserve, AFTER_STAND);
            memset(bad + AFTER_STAND, 0, more);
            memcpy(bad + AFTER_STAND + more, reserve + AFTER_STAND, reserve_length - AFTER_STAND);
            bad[2] += more, bad[AFTER_STAND - 1] = more;
            expect_text("a part of an entry", forest_rewrite(bad, reserve_length + more, LENT, text, ROOM), refusal(7, STAND),
                        "", 0);
        }
        memcpy(bad, reserve, 6);
        memcpy(bad + 6, reserve + 8, reserve_length - 8);
        bad[2] -= 2, bad[5] = 0;
        expect_text("a name of no bytes", forest_rewrite(bad, reserve_length - 2, LENT, text, ROOM), refusal(7, 3), "", 0);
        memcpy(bad, reserve, reserve_length);
        bad[AFTER_STAND + 3] = 0x02;
        expect_text("8 after no stand", forest_rewrite(bad, reserve_length, LENT, text, ROOM), refusal(8, AFTER_STAND), "", 0);
        bad[STAND - 1] = 0, bad[STAND - 2] = 0;
        expect_text("8 ahead of no stand", forest_rewrite(bad, reserve_length, LENT, text, ROOM), refusal(8, STAND - 5), "", 0);
        memcpy(bad, reserve, AFTER_STAND);
        bad[2] = AFTER_STAND - 3;
        expect_text("nothing after no stand", forest_rewrite(bad, AFTER_STAND, LENT, text, ROOM), refusal(6, AFTER_STAND), "",
                    0);
    }

    /* 17 at field 10 alone: 7 degrees, into kind 52. */
    for (size_t i = 1; i < 3; i++) {
        uint8_t cool[2][sizeof reserve_53];
        memcpy(cool[0], reserve_53, sizeof reserve_53);
        memcpy(cool[1], reserve_54, sizeof reserve_54);
        cool[0][TEMPERATURE_OF_RESERVE + 3] = cool[1][TEMPERATURE_OF_RESERVE + 3] = 12;
        expect_stuck("a reserve at 7 degrees", cool[i - 1], sizeof reserve_53, 0x52, 17, TEMPERATURE_OF_RESERVE);
        expect_moved("a reserve at 7 degrees to 53", cool[i - 1], sizeof reserve_53, 0x53, cool[0], sizeof reserve_53);
        expect_moved("a reserve at 7 degrees to 54", cool[i - 1], sizeof reserve_53, 0x54, cool[1], sizeof reserve_54);
    }
}

/* Reserves as site values of 50, 51 and 55 bytes, at 8 degrees. The pine of A1 lies behind the count, and in the longest value
 * high bytes of species 256 and more. */
static void reserve_value_calls(void) {
    static const uint64_t judged[10] = {500, 700, 1225, 50, 1411, 94, 0, 0, 606, 1}, searched[2] = {1000, 1};
    static const size_t lengths[3] = {SITE, SITE_53, SITE_54};
    uint8_t value[SITE_54] = {0};
    memcpy(value, site, SITE);
    value[COUNT] = 0, value[50] = 13, value[51] = 9, value[52] = 1;
    for (size_t i = 0; i < 3; i++) {
        const size_t length = lengths[i];
        expect("a reserve", forest_check(value, length, LENT) == 0);
        expect("a reserve, an empty list", forest_check(value, length, NONE) == 0);
        expect_numbers("loads of a reserve", forest_loads(value, length, LENT, numbers, 4), 4, judged + 2, 4);
        expect_numbers("room for three loads of it", forest_loads(value, length, LENT, numbers, 3), refusal(11, 0), judged, 0);
        expect_numbers("a level of a reserve", forest_level(value, length, LENT, numbers, 2), 2, searched, 2);
        expect_numbers("a judgement of a reserve", forest_judge(value, length, LENT, numbers, 8), 8, judged + 2, 8);
        expect_numbers("a reserve without a list", forest_judge(value, length, NONE, numbers, 11), 8, judged + 2, 8);
        expect_numbers("a year of a reserve", forest_sample(value, length, LENT, months, MONTHS, numbers, 10), 10, judged, 10);
        expect("15 of a reserve", forest_check(value, length, list, sizeof list - 1) == refusal(15, 2 * ENTRY));

        /* 1,185,000 + 900 * 44 is 400 below 1000 * 1225; with 1 more of S v is 600, and 1900 * 600 / 1,810,000 up is 1. */
        static const uint64_t within[8] = {1225, 50, 1411, 94, 0, 0, 0, 0}, over[8] = {1225, 50, 1411, 94, 2, 1, 0, 1};
        uint8_t other[SITE_54];
        memcpy(other, value, SITE_54);
        other[46] = 1185 >> 8, other[47] = 1185 & 0xFF, other[48] = 0, other[49] = 94;
        expect_numbers("a reserve within", forest_judge(other, length, LENT, numbers, 8), 8, within, 8);
        other[47]++;
        expect_numbers("a reserve over", forest_judge(other, length, LENT, numbers, 8), 8, over, 8);

        /* A count above 4, and no name. */
        other[COUNT] = 5;
        expect("a count of 5", forest_check(other, length, LENT) == refusal(7, 0));
        other[COUNT] = 255;
        expect("a count of 255", forest_check(other, length, LENT) == refusal(7, 0));
        expect_numbers("loads by a count of 255", forest_loads(other, length, LENT, numbers, 4), refusal(7, 0), judged, 0);
        expect_numbers("a level by a count of 255", forest_level(other, length, LENT, numbers, 2), refusal(7, 0), judged, 0);
        expect_numbers("a mark by a count of 255", forest_judge(other, length, LENT, numbers, 8), refusal(7, 0), judged, 0);
        expect_numbers("a year by a count of 255", forest_sample(other, length, LENT, months, MONTHS, numbers, 10),
                       refusal(7, 0), judged, 0);
        other[COUNT] = 0, other[8] = 0;
        expect("a reserve without a name", forest_check(other, length, LENT) == refusal(7, 0));
        other[8] = 2, other[34] = 0xFF, other[33] = 1;
        expect("8 of a reserve", forest_check(other, length, LENT) == refusal(8, 0));
    }

    /* At -5 degrees W is 67, w 53, A 529, h 959, M 191 + 529; at 20 W is 211, w 168, A 702, and h 1000 again. */
    static const uint64_t cold[4] = {1087, 50, 1257, 94}, cold_searched[2] = {959, 11}, warm[4] = {1311, 50, 1506, 94};
    for (size_t i = 1; i < 3; i++) {
        value[50] = 0;
        expect_numbers("loads of a reserve at -5", forest_loads(value, lengths[i], LENT, numbers, 4), 4, cold, 4);
        expect_numbers("a level of it", forest_level(value, lengths[i], LENT, numbers, 2), 2, cold_searched, 2);
        value[50] = 25;
        expect_numbers("loads of a reserve at 20", forest_loads(value, lengths[i], LENT, numbers, 4), 4, warm, 4);
        expect_numbers("a level at 20", forest_level(value, lengths[i], LENT, numbers, 2), 2, searched, 2);
        value[50] = 26;
        expect("a reserve at 21", forest_check(value, lengths[i], LENT) == refusal(8, 0));
    }
}

/* Enters a ceiling of 50 tenths, and P, in A1 of kind 55. */
static void enter_gas(uint8_t *record, unsigned gas) {
    record[CEILING_55 - 1] = 0, record[CEILING_55] = 50;
    record[GAS + 3] = gas >> 8, record[GAS + 4] = gas & 0xFF;
}

/* A refusal of a file by each call that lists it, with room and without; `line` is what is reported. */
static void expect_refused(const char *what, const uint8_t *from, size_t length, uint64_t rule, uint64_t offset,
                           const char *line) {
    expect_text(what, forest_list(from, length, LENT, text, ROOM), refusal(rule, offset), "", 0);
    expect_text(what, forest_list(from, length, LENT, NULL, 0), refusal(rule, offset), "", 0);
    expect_text(what, forest_pages(from, length, LENT, text, ROOM), refusal(rule, offset), "", 0);
    expect_text(what, forest_pages(from, length, LENT, NULL, 0), refusal(rule, offset), "", 0);
    expect_text(what, forest_report(from, length, LENT, text, strlen(line)), strlen(line), line, strlen(line));
    expect_text(what, forest_report(from, length, LENT, text, strlen(line) - 1), refusal(11, 0), "", 0);
}

/* The same of a file whose first record is at fault, which is refused as a single record too. */
static void expect_record_refused(const char *what, const uint8_t *from, size_t length, uint64_t rule, uint64_t offset,
                                  const char *line) {
    expect_refused(what, from, length, rule, offset, line);
    expect_text(what, forest_rewrite(from, length, LENT, text, ROOM), refusal(rule, offset), "", 0);
    expect_text(what, forest_rewrite(from, length, LENT, NULL, 0), refusal(rule, offset), "", 0);
}

/* Kind 55 in files and as records, and the refusal 21. */
static void near_neutral_file_calls(void) {
    const size_t length = sizeof near_neutral_listing - 1, page_length = sizeof near_neutral_page - 1;
    expect_text("kind 55", forest_list(near_neutral, sizeof near_neutral, LENT, text, length), length, near_neutral_listing,
                length);
    expect_text("kind 55 does not fit", forest_list(near_neutral, sizeof near_neutral, LENT, text, length - 1), refusal(11, 0),
                "", 0);
    expect_text("kind 55 reported", forest_report(near_neutral, sizeof near_neutral, NONE, text, ROOM), length,
                near_neutral_listing, length);
    expect_text("a page with kind 55", forest_pages(near_neutral, sizeof near_neutral, LENT, text, page_length), page_length,
                near_neutral_page, page_length);
    expect_text("kind 55 again", forest_rewrite(near_neutral, RECORD_55, LENT, text, RECORD_55), RECORD_55, near_neutral,
                RECORD_55);
    expect_text("kind 55 in 87 bytes", forest_rewrite(near_neutral, RECORD_55, LENT, text, RECORD_55 - 1), refusal(11, 0), "",
                0);
    expect_text("a record after kind 55", forest_rewrite(near_neutral, sizeof near_neutral, LENT, text, ROOM),
                refusal(4, RECORD_55), "", 0);

    /* At the ceiling of 50 hydrogen is 10 and al 0; 4 * P / 50 is 254 by 3175, and more by 3176: CLmaxS is 244 + 10 - 254. */
    static const char none_left[] = "id maxS minN maxN nutN region acidEx nutEx verdict\nA1 0 205 205 249 1 995 451 over\n";
    const size_t none_length = sizeof none_left - 1;
    uint8_t bad[sizeof near_neutral + 1];
    memcpy(bad, near_neutral, sizeof near_neutral);
    enter_gas(bad, 3175);
    expect_text("a load of 0", forest_list(bad, RECORD_55, LENT, text, ROOM), none_length, none_left, none_length);
    expect_text("a load of 0 again", forest_rewrite(bad, RECORD_55, LENT, text, ROOM), RECORD_55, bad, RECORD_55);
    enter_gas(bad, 3176);
    expect_record_refused("21", bad, RECORD_55, 21, GAS, "refused 21 at 83\n");
    expect_record_refused("21 ahead of a record", bad, sizeof near_neutral, 21, GAS, "refused 21 at 83\n");
    expect_record_refused("21 ahead of a byte", bad, RECORD_55 + 1, 21, GAS, "refused 21 at 83\n");
    enter_gas(bad, 5000);
    bad[RECORD_55] = 0x56;
    expect_record_refused("21 ahead of 3", bad, sizeof near_neutral, 21, GAS, "refused 21 at 83\n");
    expect_text("15 ahead of 21", forest_list(bad, RECORD_55, list, sizeof list - 1, text, ROOM), refusal(15, 2 * ENTRY), "", 0);

    /* After all checks of its record: P above 5000, bytes left over, the record cut. */
    enter_gas(bad, 5001);
    expect_record_refused("8 of field 11", bad, RECORD_55, 8, GAS, "refused 8 at 83\n");
    enter_gas(bad, 5000);
    bad[2]++;
    expect_record_refused("6 ahead of 21", bad, RECORD_55 + 1, 6, RECORD_55, "refused 6 at 88\n");
    expect_record_refused("2 ahead of 21", bad, RECORD_55, 2, 0, "refused 2 at 0\n");
    bad[2] = GAS - 3;
    expect_record_refused("no field 11", bad, GAS, 6, GAS, "refused 6 at 83\n");
    bad[0] = 0x54, bad[2] = RECORD_55 - 3;
    expect_record_refused("field 11 in kind 54", bad, RECORD_55, 6, GAS, "refused 6 at 83\n");

    /* As the second record. */
    uint8_t second[RECORD + RECORD_55];
    memcpy(second, file, RECORD);
    memcpy(second + RECORD, near_neutral, RECORD_55);
    enter_gas(second + RECORD, 3176);
    expect_refused("21 of the second", second, sizeof second, 21, RECORD + GAS, "refused 21 at 161\n");
    second[STAND - 1] = 0, second[STAND - 2] = 0;
    expect_refused("21 after the first", second, sizeof second, 8, STAND - 5, "refused 8 at 25\n");

    /* A reserve loses as much and has more: 425 + 10 - 400. At the ceiling of 45 it is 425 + 9 - 445. */
    static const char little_left[] = "id maxS minN maxN nutN region acidEx nutEx verdict\nA1 35 50 88 94 1 1112 606 over\n";
    const size_t little_length = sizeof little_left - 1;
    uint8_t reserve[sizeof reserve_55];
    memcpy(reserve, reserve_55, sizeof reserve);
    reserve[CEILING_OF_RESERVE - 1] = 0, reserve[CEILING_OF_RESERVE] = 50;
    expect_text("a reserve of kind 55", forest_list(reserve, sizeof reserve, LENT, text, ROOM), little_length, little_left,
                little_length);
    expect_text("a reserve of kind 55 again", forest_rewrite(reserve, sizeof reserve, LENT, text, ROOM), sizeof reserve, reserve,
                sizeof reserve);
    reserve[CEILING_OF_RESERVE] = 45;
    expect_record_refused("21 at a reserve", reserve, sizeof reserve, 21, sizeof reserve - 5, "refused 21 at 78\n");

    /* No conversion takes kind 55, whatever is in it, nor gives it. */
    static const uint8_t targets[3] = {0x52, 0x53, 0x54};
    enter_gas(second + RECORD, 3176);
    memcpy(second, file, RECORD);
    for (size_t i = 0; i < 3; i++) {
        expect_stuck("kind 55 moved", near_neutral, sizeof near_neutral, targets[i], 3, 0);
        expect_stuck("kind 55 moved, 21", second + RECORD, RECORD_55, targets[i], 3, 0);
        expect_stuck("kind 55 moved, 2", near_neutral, RECORD_55 - 1, targets[i], 3, 0);
        expect_stuck("2 bytes moved", near_neutral, 2, targets[i], 2, 0);
        expect_stuck("a later record of kind 55", second, sizeof second, targets[i], 3, RECORD);
        expect_text("15 ahead of kind 55", forest_convert(near_neutral, sizeof near_neutral, list, sizeof list - 1, targets[i],
                                                          text, ROOM), refusal(15, 2 * ENTRY), "", 0);
    }
    expect_stuck("kind 55 to 55", near_neutral, sizeof near_neutral, 0x55, 3, 0);
    expect_stuck("a later record to 55", second, sizeof second, 0x55, 3, 0);
    expect_text("15 to 55", forest_convert(near_neutral, sizeof near_neutral, list, sizeof list - 1, 0x55, text, ROOM),
                refusal(3, 0), "", 0);
}

/* A refusal of a site value by each call, with room and without; of a year too, whose months are not looked at. */
static void expect_value_refused(const char *what, const uint8_t *value, size_t length, uint64_t rule) {
    expect(what, forest_check(value, length, LENT) == refusal(rule, 0));
    expect_numbers(what, forest_loads(value, length, LENT, numbers, 4), refusal(rule, 0), numbers, 0);
    expect_numbers(what, forest_loads(value, length, LENT, NULL, 0), refusal(rule, 0), numbers, 0);
    expect_numbers(what, forest_level(value, length, LENT, numbers, 2), refusal(rule, 0), numbers, 0);
    expect_numbers(what, forest_level(value, length, LENT, NULL, 0), refusal(rule, 0), numbers, 0);
    expect_numbers(what, forest_judge(value, length, LENT, numbers, 8), refusal(rule, 0), numbers, 0);
    expect_numbers(what, forest_judge(value, length, LENT, NULL, 0), refusal(rule, 0), numbers, 0);
    expect_numbers(what, forest_sample(value, length, LENT, months, MONTHS, numbers, 10), refusal(rule, 0), numbers, 0);
    expect_numbers(what, forest_sample(value, length, LENT, NULL, 0, NULL, 0), refusal(rule, 0), numbers, 0);
}

/* Pair, loads and mark of a site value, and its level. */
static void expect_judged(const char *what, const uint8_t *value, size_t length, const uint64_t *sampled,
                          const uint64_t *searched) {
    expect(what, forest_check(value, length, LENT) == 0);
    expect_numbers(what, forest_loads(value, length, LENT, numbers, 4), 4, sampled + 2, 4);
    expect_numbers(what, forest_level(value, length, LENT, numbers, 2), 2, searched, 2);
    expect_numbers(what, forest_judge(value, length, LENT, numbers, 8), 8, sampled + 2, 8);
    expect_numbers(what, forest_sample(value, length, LENT, months, MONTHS, numbers, 10), 10, sampled, 10);
}

/* Kind 55 as site values of 57 bytes, and the refusal 21. */
static void near_neutral_value_calls(void) {
    static const uint64_t plain[10] = {500, 700, 735, 205, 1021, 249, 2, 221, 451, 1}, searched[2] = {818, 11};
    static const uint64_t most[10] = {500, 700, 710, 205, 993, 249, 2, 248, 451, 1}, low[2] = {50, 1};
    /* 10 - 4 * 1250 / 50 is -90, which leaves 154, and v 791,500; 10 - 254 leaves 0, and 500 + 445,500 / 900 to cut. */
    static const uint64_t less[10] = {500, 700, 154, 205, 376, 249, 2, 831, 451, 1};
    static const uint64_t none[10] = {500, 700, 0, 205, 205, 249, 1, 995, 451, 1};
    uint8_t value[SITE_55 + 1] = {0};
    memcpy(value, site, SITE);
    value[50] = 13;
    expect_judged("P 0", value, SITE_55, plain, searched);
    value[55] = 5000 >> 8, value[56] = 5000 & 0xFF;
    expect_judged("P 5000", value, SITE_55, most, searched);
    expect_judged("the first 55 bytes", value, SITE_54, plain, searched);
    /* At 20 degrees W is 211, A 430, h 895, M 179 + 430 less 20,000 / 895 up, and v 29,500. */
    static const uint64_t warm[10] = {500, 700, 916, 205, 1222, 249, 2, 31, 451, 1}, warm_searched[2] = {895, 11};
    value[50] = 25;
    expect_judged("P 5000 at 20", value, SITE_55, warm, warm_searched);
    value[50] = 13;
    expect_value_refused("a site of 56 bytes", value, SITE_55 - 1, 7);
    expect_value_refused("a site of 58 bytes", value, SITE_55 + 1, 7);
    value[CEILING - 1] = 0, value[CEILING] = 50;
    expect_value_refused("21 by P 5000", value, SITE_55, 21);
    value[55] = 1250 >> 8, value[56] = 1250 & 0xFF;
    expect_judged("P 1250", value, SITE_55, less, low);
    value[55] = 3175 >> 8, value[56] = 3175 & 0xFF;
    expect_judged("P 3175", value, SITE_55, none, low);
    value[56]++;
    expect_value_refused("21 by P 3176", value, SITE_55, 21);
    expect("15 ahead of 21", forest_check(value, SITE_55, list, sizeof list - 1) == refusal(15, 2 * ENTRY));

    /* All other rules come first: a temperature of 21 degrees, P 5001, a species that the list lacks, no name. */
    value[50] = 26;
    expect_value_refused("8 ahead of 21", value, SITE_55, 8);
    value[50] = 13, value[55] = 5001 >> 8, value[56] = 5001 & 0xFF;
    expect_value_refused("P 5001", value, SITE_55, 8);
    value[56]--, value[51] = 2;
    expect_value_refused("16 ahead of 21", value, SITE_55, 16);
    value[8] = 0;
    expect_value_refused("7 ahead of 21", value, SITE_55, 7);
    value[8] = 2, value[51] = 1;
    expect_value_refused("21 by species 256", value, SITE_55, 21);
    value[51] = 0, value[COUNT] = 0;
    static const uint64_t of_reserve[10] = {500, 700, 35, 50, 88, 94, 1, 1112, 606, 1};
    expect_judged("a reserve with P 5000", value, SITE_55, of_reserve, low);
}

int main(void) {
    static const uint64_t sampled[10] = {500, 700, 735, 205, 1021, 249, 2, 221, 451, 1}, *const judged = sampled + 2;
    const size_t length = sizeof listing - 1, page_length = sizeof page - 1;
    lend();

    expect_text("a listing", forest_list(file, sizeof file, LENT, text, length), length, listing, length);
    expect_text("a listing that does not fit", forest_list(file, sizeof file, LENT, text, length - 1), refusal(11, 0), "", 0);
    expect_text("a listing of a record cut", forest_list(file, sizeof file - 1, LENT, text, ROOM), refusal(2, RECORD), "", 0);
    expect_text("a listing of nothing", forest_list(NULL, 0, NONE, NULL, 0), refusal(1, 0), "", 0);

    expect_text("a page", forest_pages(file, sizeof file, LENT, text, page_length), page_length, page, page_length);
    expect_text("a page that does not fit", forest_pages(file, sizeof file, LENT, text, page_length - 1), refusal(11, 0), "",
                0);
    expect_text("a page of a record cut", forest_pages(file, sizeof file - 1, LENT, text, ROOM), refusal(2, RECORD), "", 0);
    expect_text("a page of nothing", forest_pages(NULL, 0, NONE, NULL, 0), refusal(1, 0), "", 0);

    expect_text("a report", forest_report(file, sizeof file, LENT, text, length), length, listing, length);
    expect_text("a report of a record cut", forest_report(file, sizeof file - 1, LENT, text, ROOM), 16, "refused 2 at 78\n",
                16);
    expect_text("a report of nothing", forest_report(NULL, 0, NONE, NULL, 0), refusal(11, 0), "", 0);

    expect_text("a record again", forest_rewrite(file, RECORD, LENT, text, ROOM), RECORD, file, RECORD);
    expect_text("a record that does not fit", forest_rewrite(file, RECORD, LENT, text, RECORD - 1), refusal(11, 0), "", 0);
    expect_text("two records", forest_rewrite(file, sizeof file, LENT, text, ROOM), refusal(4, RECORD), "", 0);
    expect_text("no record", forest_rewrite(NULL, 0, NONE, NULL, 0), refusal(1, 0), "", 0);

    expect("a site", forest_check(site, SITE, LENT) == 0);
    expect("a site of 49 bytes", forest_check(site, SITE - 1, LENT) == refusal(7, 0));
    expect("a site of no bytes", forest_check(NULL, 0, NONE) == refusal(7, 0));

    expect_numbers("four loads", forest_loads(site, SITE, LENT, numbers, 4), 4, judged, 4);
    expect_numbers("room for three loads", forest_loads(site, SITE, LENT, numbers, 3), refusal(11, 0), judged, 0);
    expect_numbers("loads of no site", forest_loads(NULL, 0, NONE, NULL, 0), refusal(7, 0), judged, 0);

    static const uint64_t searched[2] = {818, 11}, at_once[2] = {818, 1};
    uint8_t low_ceiling[SITE], no_ceiling[SITE];
    memcpy(low_ceiling, site, SITE);
    low_ceiling[42] = 818 >> 8, low_ceiling[43] = 818 & 0xFF;
    memcpy(no_ceiling, site, SITE);
    no_ceiling[42] = no_ceiling[43] = 0;
    expect_numbers("a level", forest_level(site, SITE, LENT, numbers, 2), 2, searched, 2);
    expect_numbers("a ceiling allowed", forest_level(low_ceiling, SITE, LENT, numbers, 11), 2, at_once, 2);
    expect_numbers("a ceiling of 0", forest_level(no_ceiling, SITE, LENT, numbers, 11), refusal(8, 0), searched, 0);
    expect_numbers("room for a level alone", forest_level(site, SITE, LENT, numbers, 1), refusal(11, 0), searched, 0);
    expect_numbers("a level of no site", forest_level(NULL, 0, NONE, NULL, 0), refusal(7, 0), searched, 0);

    expect_numbers("a judgement", forest_judge(site, SITE, LENT, numbers, 8), 8, judged, 8);
    expect_numbers("room for seven numbers", forest_judge(site, SITE, LENT, numbers, 7), refusal(11, 0), judged, 0);
    expect_numbers("a judgement of no site", forest_judge(NULL, 0, NONE, NULL, 0), refusal(7, 0), judged, 0);

    uint8_t came_within[SITE], missing[MONTHS];
    memcpy(came_within, site, SITE);
    came_within[46] = came_within[48] = 0;
    memcpy(missing, months, MONTHS);
    missing[11 * MONTH + 12] = 2;
    expect_numbers("a year", forest_sample(came_within, SITE, LENT, months, MONTHS, numbers, 10), 10, sampled, 10);
    expect_numbers("room for nine numbers", forest_sample(site, SITE, LENT, months, MONTHS, numbers, 9), refusal(11, 0),
                   sampled, 0);
    expect_numbers("a reading missing", forest_sample(site, SITE, LENT, missing, MONTHS, numbers, 11), refusal(13, 11),
                   sampled, 0);
    expect_numbers("203 bytes of months", forest_sample(site, SITE, LENT, months, MONTHS - 1, numbers, 11), refusal(7, 0),
                   sampled, 0);
    came_within[13] = 6;
    expect_numbers("a bad site, no months", forest_sample(came_within, SITE, LENT, NULL, 0, numbers, 11), refusal(8, 0),
                   sampled, 0);
    expect_numbers("a year of no site", forest_sample(NULL, 0, NONE, NULL, 0, NULL, 0), refusal(7, 0), sampled, 0);

    const size_t mixed_length = sizeof mixed_listing - 1;
    uint8_t hot[RECORD_53], unfinished[RECORD];
    memcpy(hot, mixed, RECORD_53);
    hot[81] = 26;
    memcpy(unfinished, mixed, RECORD);
    unfinished[2] = 75;
    expect_text("both kinds", forest_list(mixed, sizeof mixed, LENT, text, ROOM), mixed_length, mixed_listing, mixed_length);
    expect_text("both kinds reported", forest_report(mixed, sizeof mixed, LENT, text, ROOM), mixed_length, mixed_listing,
                mixed_length);
    expect_text("a page of both kinds", forest_pages(mixed, sizeof mixed, LENT, text, ROOM), page_length, mixed_page,
                page_length);
    expect_text("kind 53 again", forest_rewrite(mixed, RECORD_53, LENT, text, ROOM), RECORD_53, mixed, RECORD_53);
    expect_text("kind 53 does not fit", forest_rewrite(mixed, RECORD_53, LENT, text, RECORD_53 - 1), refusal(11, 0), "", 0);
    expect_text("a record after kind 53", forest_rewrite(mixed, sizeof mixed, LENT, text, ROOM), refusal(4, RECORD_53), "", 0);
    expect_text("a temperature of 21", forest_rewrite(hot, RECORD_53, LENT, text, ROOM), refusal(8, RECORD), "", 0);
    expect_text("kind 53 without a temperature", forest_rewrite(unfinished, RECORD, LENT, text, ROOM), refusal(6, RECORD),
                "", 0);
    hot[0] = 0x52;
    expect_text("kind 52 with a temperature", forest_rewrite(hot, RECORD_53, LENT, text, ROOM), refusal(6, RECORD), "", 0);
    hot[0] = 0x54;
    expect_text("a stand of four bytes in kind 54", forest_rewrite(hot, RECORD_53, LENT, text, ROOM), refusal(7, STAND), "", 0);
    hot[0] = 0x55;
    expect_text("a stand of four bytes in kind 55", forest_rewrite(hot, RECORD_53, LENT, text, ROOM), refusal(7, STAND), "", 0);
    hot[0] = 0x56;
    expect_text("an outer tag of 56", forest_rewrite(hot, RECORD_53, LENT, text, ROOM), refusal(3, 0), "", 0);

    /* A1 in 51 bytes. At 20 degrees t is 1690, so that W is 211, w 168, Bu 181, A 430, h 895, M 179 + 430, and v 6500. */
    static const uint64_t cold[10] = {500, 700, 595, 205, 866, 249, 2, 368, 451, 1}, cold_searched[2] = {755, 11};
    static const uint64_t warm[10] = {500, 700, 939, 205, 1248, 249, 2, 7, 451, 1}, warm_searched[2] = {895, 11};
    uint8_t site_53[SITE_53 + 1] = {0};
    memcpy(site_53, site, SITE);
    expect("a site of 51 bytes", forest_check(site_53, SITE_53, LENT) == 0);
    expect("a site of 52 bytes", forest_check(site_53, SITE_53 + 1, LENT) == refusal(7, 0));
    expect_numbers("loads at -5", forest_loads(site_53, SITE_53, LENT, numbers, 4), 4, cold + 2, 4);
    expect_numbers("a level at -5", forest_level(site_53, SITE_53, LENT, numbers, 2), 2, cold_searched, 2);
    expect_numbers("a judgement at -5", forest_judge(site_53, SITE_53, LENT, numbers, 8), 8, cold + 2, 8);
    expect_numbers("a year at -5", forest_sample(site_53, SITE_53, LENT, months, MONTHS, numbers, 10), 10, cold, 10);
    expect_numbers("the first 50 bytes", forest_judge(site_53, SITE, LENT, numbers, 8), 8, judged, 8);
    expect_numbers("the first 49 bytes", forest_judge(site_53, SITE - 1, LENT, numbers, 8), refusal(7, 0), judged, 0);
    expect_numbers("loads of 52 bytes", forest_loads(site_53, SITE_53 + 1, LENT, numbers, 4), refusal(7, 0), judged, 0);
    expect_numbers("a level of 52 bytes", forest_level(site_53, SITE_53 + 1, LENT, numbers, 2), refusal(7, 0), judged, 0);
    expect_numbers("a judgement of 52 bytes", forest_judge(site_53, SITE_53 + 1, LENT, numbers, 8), refusal(7, 0), judged, 0);
    expect_numbers("a year of 52 bytes", forest_sample(site_53, SITE_53 + 1, LENT, months, MONTHS, numbers, 10), refusal(7, 0),
                   judged, 0);
    site_53[50] = 13;
    expect_numbers("a judgement at 8", forest_judge(site_53, SITE_53, LENT, numbers, 8), 8, judged, 8);
    site_53[50] = 25;
    expect_numbers("loads at 20", forest_loads(site_53, SITE_53, LENT, numbers, 4), 4, warm + 2, 4);
    expect_numbers("a level at 20", forest_level(site_53, SITE_53, LENT, numbers, 2), 2, warm_searched, 2);
    expect_numbers("a judgement at 20", forest_judge(site_53, SITE_53, LENT, numbers, 8), 8, warm + 2, 8);
    expect_numbers("a year at 20", forest_sample(site_53, SITE_53, LENT, months, MONTHS, numbers, 10), 10, warm, 10);
    site_53[50] = 26;
    expect("a site at 21", forest_check(site_53, SITE_53, LENT) == refusal(8, 0));
    expect_numbers("loads at 21", forest_loads(site_53, SITE_53, LENT, numbers, 4), refusal(8, 0), judged, 0);
    expect_numbers("a level at 21", forest_level(site_53, SITE_53, LENT, numbers, 2), refusal(8, 0), judged, 0);
    expect_numbers("a judgement at 21", forest_judge(site_53, SITE_53, LENT, numbers, 8), refusal(8, 0), judged, 0);
    expect_numbers("a year at 21", forest_sample(site_53, SITE_53, LENT, months, MONTHS, numbers, 10), refusal(8, 0), judged,
                   0);
    expect("50 bytes, at no temperature", forest_check(site_53, SITE, LENT) == 0);

    overseas_calls(judged);
    convert_calls();
    reserve_file_calls();
    reserve_value_calls();
    near_neutral_file_calls();
    near_neutral_value_calls();

    printf("%u passed, %u failed\n", passed, failed);
    return failed > 0;
}
