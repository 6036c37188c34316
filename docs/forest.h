/*
 * Forest site instrument: critical loads, exceedances and verdict.
 *
 * A result is one number. Below 2^32 it is a count: of bytes for forest_list, forest_pages, forest_report, forest_rewrite and
 * forest_convert, of numbers for forest_loads, forest_level, forest_judge and forest_sample, and 0 for forest_check. From
 * 2^32 on it is a refusal: rule number * 2^32 + offset. A refusal alters no byte of the lent buffer; a success alters the
 * first `count` elements alone.
 *
 *   Refusal                                                                            Offset
 *    1  no bytes                                                                       0
 *    2  outer field cut: under 3 bytes, or length above 255 or beyond the end          the outer field
 *    3  outer tag other than 52, 53, 54 and 55 (hexadecimal); in a conversion 55 too   the outer field; 0 for a target
 *    4  bytes after the 500th record, or after a single one                            the first byte left over
 *    5  inner field cut: under 3 bytes, or length beyond its record                    the field
 *    6  another tag than the next due, none left, or bytes after the last field due    the byte, or the record's end
 *    7  length, or count of entries, not permitted                                     the field
 *    8  value out of range                                                             the field
 *    9  species not rising                                                             the field
 *   10  shares not 100, where there are entries                                        the field
 *   11  lent buffer shorter than the output                                            0
 *   12  concentration or limit not a number, infinite, negative or above 1000          the month, from 0
 *   13  reading missing                                                                the month, from 0
 *   14  S or N of the year above 65,535                                                12
 *   15  entry of the species list broken, not rising, or of a number not 256 to 1023   the entry, in the list
 *   16  species that the species list lacks                                            the stand's field
 *   17  species, or temperature, that the target's kind cannot hold                    the first such field
 *   21  bicarbonate takes so much that CLmaxS would be below 0                         field 11, the last of its record
 *
 * Offsets count bytes from the start of the file or record; of a site value each is 0; 8 for a month's rain is at the month,
 * and 15 is counted from the start of the list. 15 comes ahead of all others but 3 for a target. Then the first fault from
 * the left is given, 16 after 10 of the same stand, 21 after all other faults of its record or site value, bytes left over (6)
 * included, and ahead of whatever follows the record, 14 after all months, 17 after all faults of the file, and 11 only where
 * there is no other.
 *
 * A field is a tag of one byte, a length of two bytes, high byte first, and a value. A record is an outer field whose value
 * is the fields of its kind, each once, rising. The kind is the outer tag: 52 has the fields 01 to 0F, 53 those and field 10,
 * 54 those of 53 with stand entries of five bytes, the species number in two: species (2), share, yield (2); in 52 and 53 it
 * is one byte. 55 has the fields of 54 and field 11 (tags hexadecimal). A record of kind 52 has at most 96 bytes, of 53 100, of
 * 54 104, of 55 109. A file is 1 to 500 records, which may be of several kinds. README.md, "A file of records", has the values
 * with their codes, units and ranges.
 *
 * Field 11 is the carbon dioxide P of the soil in units of 0.00001 atm, two bytes, 0 to 5000; a site of another kind has P 0. At
 * a hydrogen level of h tenths of meq per cubic metre, h being 1 or more, bicarbonate leaches: percolation * P / (50 * h), up.
 * The net leaching, hydrogen and aluminium less bicarbonate, counts at the greatest allowed h, and may be below 0. Where so much
 * is lost that CLmaxS would be below 0, no pair S, N closes the acid balance, and the site is refused by 21: by every call that
 * takes a file, a record or a site value, but for forest_convert, which takes no kind 55. A CLmaxS of 0 is accepted. With P 0 a
 * site of kind 55 has the loads and the mark of the same site in kind 54.
 *
 * A stand has at most four entries; more, or a part of an entry, are refused by 7. The stand of a reserve, a site without
 * harvest, has none: in every kind its field 07 is the three bytes 07 00 00 (hexadecimal), and the count of its site value is
 * 0. A reserve takes up no nitrogen and no base cations, so its CLminN is the immobilisation. Rules 8 and 16 find no entry in
 * its stand, 9 and 10 don't apply. Every call takes reserves, and a file may hold them among other records.
 *
 * Species 0 to 8 are the unit's own in every kind; above 8 kinds 52 and 53 have none. In kinds 54 and 55 the species 256 to 1023
 * stand in a species list, which is lent with every file, record and site value, right after it; other numbers are refused
 * by 8. A list is entries of ten bytes, their numbers strictly rising, each number of two bytes high byte first:
 *
 *    0  species, 256 to 1023     2  Ca     4  Mg     6  K     8  N
 *
 * Ca, Mg, K and N are contents in hundredths of eq per tonne of dry matter, 0 to 65535. A list has at most 768 entries, 7680
 * bytes; a list of no bytes is good, and has no species.
 *
 * A site value is the same values in 50 bytes for kind 52, 51 for kind 53, 55 for kind 54 and 57 for kind 55, numbers of two
 * bytes high byte first:
 *
 *    0  name, 8 bytes            8  length of the name       9  parent material
 *   10  clay                    11  sand                    12  root depth
 *   13  drainage                14  percolation, 2          16  stand, 4 entries of 4: species, share, yield (2)
 *   32  count of entries, 0 to 4: 0 is a reserve            33  immobilisation, 2
 *   35  available share of weathering
 *   36  base cation deposition, 2                           38  critical Bc/Al ratio, 2
 *   40  gibbsite constant, 2    42  hydrogen ceiling, 2     44  acceptable nitrogen in leachate, 2
 *   46  deposition S, 2         48  deposition N, 2         50  temperature, of kinds 53, 54 and 55
 *   51  high bytes of the four species, of kinds 54 and 55; the low bytes stand at 16, 20, 24 and 28
 *   55  carbon dioxide, 2, of kind 55 alone
 *
 * Bytes of the name past its length are not looked at, nor are entries past their count: of a reserve all four, whatever they
 * hold. A count above 4 is refused by 7, as is a length of the name other than 1 to 8.
 *
 * The temperature is the mean in degrees Celsius plus 5, 0 to 25 for -5 to 20 degrees; a site of kind 52 weathers as at 8
 * degrees. Any 50, 51, 55 or 57 bytes are a site value; a bad one is refused by rules 7 to 10, 16 and 21, another length by 7.
 *
 * The rain sampler's months are 204 bytes, 17 for each of twelve months, numbers with the high byte first:
 *
 *    0  rain in mm, 2, 0 to 1000                             2  sulphate sulphur, 5
 *    7  nitrate nitrogen, 5                                 12  ammonium nitrogen, 5
 *
 * Such a reading is its case, 0 measured, 1 below a detection limit, 2 missing, and the 32 bits of a float (IEEE 754
 * binary32) in mg per litre, that of case 1 being the limit. Another case counts as missing; the float of a missing reading
 * is not looked at. Another length than 204 is refused by 7 at 0.
 *
 * What a call asks:
 *   - a pointer is valid for its length: its elements may be read, those of `out` written, and nothing else writes them
 *     until the call returns. A pointer of length 0 is not followed, and may be null;
 *   - a length counts elements: bytes, or numbers of type uint64_t;
 *   - `uint64_t *out` is aligned for uint64_t;
 *   - input and output do not overlap;
 *   - the stack given below, in whole KiB. No proof bounds it: it is measured (docs/src/compare/stack) on the library of
 *     `rt lib` in crates/exports_c, which is compiled for x86-64-v2 at -O3. Of the C library memcpy and memset alone are called;
 *     where one is bound at its first call, that call takes some 3 KiB more.
 *
 * Calls keep no state. They may be made from several threads at once if none writes what another reads or writes.
 */
#ifndef FOREST_H
#define FOREST_H

#include <stddef.h>
#include <stdint.h>

#ifdef __cplusplus
extern "C" {
#endif

/* The listing of a file of records. A buffer of FOREST_MOST_TEXT bytes is always long enough. Stack: 73 KiB. */
uint64_t forest_list(const uint8_t *file, size_t file_len, const uint8_t *list, size_t list_len, uint8_t *out, size_t out_len);

/* The listing as pages of 60 lines: a header and 59 sites, on the last page 1 to 59, and a short last page is not filled.
 * Every line is 64 characters and then 0A (hexadecimal): the name left in 8; right the four loads in 8 each, the region in
 * 2, the two exceedances in 7 each, the verdict in 7; one space. The buffer is for all pages together: one of
 * FOREST_MOST_PAGES bytes is always long enough. Stack: 73 KiB. */
uint64_t forest_pages(const uint8_t *file, size_t file_len, const uint8_t *list, size_t list_len, uint8_t *out, size_t out_len);

/* The listing, or the line `refused N at M`, also where the list is refused; with an empty list, what the program prints for
 * the file. 11 alone is a refusal here, and does not come with a buffer of FOREST_MOST_TEXT bytes. Stack: 73 KiB. */
uint64_t forest_report(const uint8_t *file, size_t file_len, const uint8_t *list, size_t list_len, uint8_t *out, size_t out_len);

/* A single record, read and written again: a buffer as long as the record, at most FOREST_MOST_RECORD bytes, is long enough.
 * Stack: 2 KiB. */
uint64_t forest_rewrite(const uint8_t *record, size_t record_len, const uint8_t *list, size_t list_len, uint8_t *out,
                        size_t out_len);

/* The records of a file, of one kind or of several, all moved to the kind with the outer tag `target`, 52, 53 or 54
 * (hexadecimal). Up from 52 the temperature is 8 degrees Celsius; into 54 a species gains a high byte of zero. A record goes
 * down to 52 only at 8 degrees, and out of 54 only where all its species are below 256; a reserve has none, so that only its
 * temperature can keep it back. One of the target's kind stays as it is. A record keeps its loads and its mark, and a file of
 * one kind, moved and then moved back, its bytes.
 * Kind 55 is neither moved nor a target. Refused are, in this order: a target other than the three (3, at 0); the list (15);
 * the file, as by forest_list (1 to 10 and 16), but that an outer tag of 55 is refused by 3 at its field, after 2 for under 3
 * bytes and ahead of 2 for its length; the first field from the left that cannot go down, 07 ahead of 10 in a record (17); a
 * buffer shorter than the moved file (11). A moved record has at most 104 bytes: a buffer of FOREST_MOST_CONVERTED bytes is
 * always long enough. Stack: 66 KiB. */
uint64_t forest_convert(const uint8_t *file, size_t file_len, const uint8_t *list, size_t list_len, uint8_t target,
                        uint8_t *out, size_t out_len);

/* The check of a list and a site value: 0, or the first rule they break. Stack: 2 KiB. */
uint64_t forest_check(const uint8_t *site, size_t site_len, const uint8_t *list, size_t list_len);

/* Four numbers: CLmaxS, CLminN, CLmaxN, CLnutN. Stack: 2 KiB. */
uint64_t forest_loads(const uint8_t *site, size_t site_len, const uint8_t *list, size_t list_len, uint64_t *out, size_t out_len);

/* Two numbers: the greatest allowed hydrogen level h, in tenths of meq per cubic metre, and how many levels the search
 * compared with the aluminium limit. It looks at the ceiling first and, only if that is not allowed, always at the mean,
 * down, of the greatest level known allowed (0 at first, not compared) and the least known not, until these are neighbours.
 * So the count is 1 exactly where the ceiling is allowed, and never more than 14. Stack: 2 KiB. */
uint64_t forest_level(const uint8_t *site, size_t site_len, const uint8_t *list, size_t list_len, uint64_t *out, size_t out_len);

/* Eight numbers: the four loads, region (0 to 4), acid exceedance, nutrient exceedance, mark (0 within, 1 over).
 * Stack: 2 KiB. */
uint64_t forest_judge(const uint8_t *site, size_t site_len, const uint8_t *list, size_t list_len, uint64_t *out, size_t out_len);

/* The pair of a year from the rain sampler, judged at the site in place of its own. Ten numbers: S, N, then the eight of
 * forest_judge for the site with this pair. Each reading counts in whole micrograms per litre, up, a value below the limit
 * as the limit. S is the sum of mm times micrograms, divided by 1600, up; N that of both forms of nitrogen, divided by 1400,
 * up. List and site are checked first, then the length of the months, then each month in order: rain (8), sulphate, nitrate,
 * ammonium (12 or 13, also in a month without rain). Stack: 2 KiB. */
uint64_t forest_sample(const uint8_t *site, size_t site_len, const uint8_t *list, size_t list_len, const uint8_t *months,
                       size_t months_len, uint64_t *out, size_t out_len);

/* No listing and no report is longer than the first, no accepted record than the third, and no moved file than the fourth. The
 * second is the length of all pages of a file of 500 records. */
#define FOREST_MOST_TEXT 81551
#define FOREST_MOST_PAGES 33085
#define FOREST_MOST_RECORD 258
#define FOREST_MOST_CONVERTED 52000

#ifdef __cplusplus
}
#endif

#endif
