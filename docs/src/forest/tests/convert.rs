//! The conversion of document 02, E7: A1 in every kind, files of several kinds, and refusal 17 among the others.

mod common;

use common::{a1, a1_as, a1_with, bytes, outer, A1_FIELDS, FOUR, FOUR_WIDE, LONG_NAME, MILD, PINE};
use forest::{convert, judge, list, read_record, Refusal};

const TAGS: [u8; 3] = [0x52, 0x53, 0x54];

/// Field 10 at a degree less than 8 °C, and at one more.
const COOL: &str = "10 0001 0C";
const WARM: &str = "10 0001 0E";

/// A1's field 07 in kind 54 with either of the two species in the list.
const FIRST: &str = "07 0005 0100 64 07D0";
const LAST: &str = "07 0005 03FF 64 07D0";

/// Species 256 with the contents of pine, and 1023.
fn species() -> Vec<u8> {
    bytes("0100 150D 07BC 067C 1E66  03FF 0001 0002 0003 0004")
}

/// This list and a byte more.
fn bad_list() -> Vec<u8> {
    [species(), vec![0]].concat()
}

/// A1 in kind 53, 82 bytes.
fn a1_53(temperature: &str) -> Vec<u8> {
    a1_as(0x53, &[temperature])
}

/// A1 in kind 54 with another stand, 83 bytes where that has one entry.
fn a1_54(stand: &str, temperature: &str) -> Vec<u8> {
    a1_as(0x54, &[stand, temperature])
}

/// A1 in the kinds 52, 53 and 54.
fn a1_by_kind() -> [Vec<u8>; 3] {
    [a1(), a1_53(MILD), a1_54(PINE, MILD)]
}

/// A file moved in a buffer with room, of which no other byte is written.
fn moved(file: &[u8], target: u8) -> Vec<u8> {
    let mut out = vec![0xEE; 60_000];
    let length = convert(file, &species(), target, &mut out).expect("a file that converts");
    assert!(out.split_off(length).iter().all(|&byte| byte == 0xEE));
    out
}

/// The refusal of a file with a list in a buffer, as number and offset; no byte is written.
fn refused_in(room: usize, file: &[u8], lent: &[u8], target: u8) -> (u8, usize) {
    let mut out = vec![0xEE; room];
    let Refusal { rule, offset } = convert(file, lent, target, &mut out).unwrap_err();
    assert!(out.iter().all(|&byte| byte == 0xEE));
    (rule as u8, offset)
}

/// A refusal that is the same with room and without.
fn refused_with(lent: &[u8], file: &[u8], target: u8) -> (u8, usize) {
    let refusal = refused_in(60_000, file, lent, target);
    assert_eq!(refused_in(0, file, lent, target), refusal);
    refusal
}

fn refused(file: &[u8], target: u8) -> (u8, usize) {
    refused_with(&species(), file, target)
}

/// Every one of some records, or files, is each of them in another kind.
fn move_to_each_other(kinds: &[Vec<u8>; 3]) {
    for from in kinds {
        for (to, tag) in kinds.iter().zip(TAGS) {
            assert_eq!(moved(from, tag), *to);
        }
    }
}

#[test]
fn a1_moves_from_every_kind_to_every_kind() {
    let kinds = a1_by_kind();
    assert_eq!(kinds.each_ref().map(Vec::len), [78, 82, 83]);
    move_to_each_other(&kinds);
}

#[test]
fn every_entry_of_a_stand_gains_or_loses_a_byte() {
    let kinds = [
        a1_with(&[FOUR]),
        a1_as(0x53, &[FOUR, MILD]),
        a1_as(0x54, &[FOUR_WIDE, MILD]),
    ];
    assert_eq!(kinds.each_ref().map(Vec::len), [90, 94, 98]);
    move_to_each_other(&kinds);
}

#[test]
fn a_full_file_of_the_longest_records() {
    let kinds = [
        a1_with(&[LONG_NAME, FOUR]),
        a1_as(0x53, &[LONG_NAME, FOUR, MILD]),
        a1_as(0x54, &[LONG_NAME, FOUR_WIDE, MILD]),
    ];
    let full = kinds.each_ref().map(|record| record.repeat(500));
    assert_eq!(full.each_ref().map(Vec::len), [48_000, 50_000, 52_000]);
    move_to_each_other(&full);
    let longer = kinds[0].repeat(501);
    assert_eq!(refused(&longer, 0x54), (4, 48_000));
}

#[test]
fn a_file_of_several_kinds_is_of_one_then() {
    let [as_52, as_53, as_54] = a1_by_kind();
    let file = [&as_53[..], &as_52, &as_54, &as_52].concat();
    assert_eq!(moved(&file, 0x52), as_52.repeat(4));
    assert_eq!(moved(&file, 0x53), as_53.repeat(4));
    assert_eq!(moved(&file, 0x54), as_54.repeat(4));
    // A temperature stays with its record, and so do species of the list.
    let file = [&a1_53(WARM)[..], &as_52, &a1_54(PINE, COOL)].concat();
    let expected = [&a1_53(WARM)[..], &as_53, &a1_53(COOL)].concat();
    assert_eq!(moved(&file, 0x53), expected);
    let file = [&a1_53(WARM)[..], &as_52, &a1_54(FIRST, COOL)].concat();
    let expected = [&a1_54(PINE, WARM)[..], &as_54, &a1_54(FIRST, COOL)].concat();
    assert_eq!(moved(&file, 0x54), expected);
}

#[test]
fn a_file_of_the_target_kind_stays_as_it_is() {
    for file in [
        a1(),
        a1_53("10 0001 00"),
        a1_53("10 0001 19"),
        [a1_53(COOL), a1_53(WARM)].concat(),
        a1_54(PINE, COOL),
        a1_54(FIRST, COOL),
        a1_54(LAST, WARM),
    ] {
        assert_eq!(moved(&file, file[0]), file);
    }
}

#[test]
fn there_and_back_again() {
    for (file, from) in a1_by_kind().iter().zip(TAGS) {
        let file = file.repeat(3);
        for to in TAGS {
            assert_eq!(moved(&moved(&file, to), from), file);
        }
    }
    // With every temperature, between 53 and 54.
    for byte in 0..=25 {
        let field = format!("10 0001 {byte:02X}");
        let (narrow, wide) = (a1_53(&field), a1_54(PINE, &field));
        assert_eq!(moved(&narrow, 0x54), wide);
        assert_eq!(moved(&wide, 0x53), narrow);
    }
}

#[test]
fn loads_mark_and_listing_stay() {
    let mut files = a1_by_kind().to_vec();
    files.extend((0..=25).map(|byte| a1_53(&format!("10 0001 {byte:02X}"))));
    files.push(a1_54(FIRST, COOL));
    let lent = species();
    let (mut before, mut after) = ([0; 200], [0; 200]);
    let mut conversions = 0;
    for file in files {
        let lines = list(&file, &lent, &mut before);
        let judgement = judge(&read_record(&file, &lent).unwrap(), &lent);
        for target in TAGS {
            let mut out = [0; 83];
            let Ok(length) = convert(&file, &lent, target, &mut out) else {
                continue;
            };
            let record = &out[..length];
            assert_eq!(list(record, &lent, &mut after), lines);
            assert_eq!(after, before);
            let site = read_record(record, &lent).unwrap();
            assert_eq!(judge(&site, &lent), judgement);
            conversions += 1;
        }
    }
    // Three times 3; of the 26 each to 53 and 54, and one to 52; and the last to 54.
    assert_eq!(conversions, 9 + 2 * 26 + 1 + 1);
}

#[test]
fn down_to_52_at_8_degrees_alone() {
    for byte in (0..=25).filter(|&byte| byte != 13) {
        let field = format!("10 0001 {byte:02X}");
        // Field 10 has the last four bytes.
        assert_eq!(refused(&a1_53(&field), 0x52), (17, 78));
        assert_eq!(refused(&a1_54(PINE, &field), 0x52), (17, 79));
    }
}

#[test]
fn out_of_54_with_species_below_256_alone() {
    for stand in [
        FIRST,
        LAST,
        "07 000A  0008 32 0000  0100 32 0000",
        "07 000F  0000 21 0000  0001 21 0000  03FF 22 0000",
        "07 0014  0000 19 0000  0001 19 0000  0002 19 0000  0100 19 0000",
    ] {
        for temperature in [MILD, COOL] {
            let file = a1_54(stand, temperature);
            // Field 07 stands after 3, 5, 4, 5, 4, 4 and 5 bytes, and comes before field 10.
            assert_eq!(refused(&file, 0x52), (17, 30));
            assert_eq!(refused(&file, 0x53), (17, 30));
            assert_eq!(moved(&file, 0x54), file);
        }
    }
}

#[test]
fn the_field_is_found_behind_a_longer_name_and_stand() {
    let narrow = a1_as(0x53, &[LONG_NAME, FOUR, COOL]);
    assert_eq!(refused(&narrow, 0x52), (17, 96));
    let wide = a1_as(0x54, &[LONG_NAME, FOUR_WIDE, COOL]);
    assert_eq!(refused(&wide, 0x52), (17, 100));
    assert_eq!(moved(&wide, 0x53), narrow);
    let listed = a1_as(0x54, &[LONG_NAME, FIRST, COOL]);
    assert_eq!(refused(&listed, 0x52), (17, 36));
    assert_eq!(refused(&listed, 0x53), (17, 36));
}

#[test]
fn the_first_field_from_the_left() {
    let (cool, listed) = (a1_53(COOL), a1_54(FIRST, MILD));
    // Field 10 of the first record comes before field 07 of the second, where both are in the way.
    let file = [&cool[..], &listed].concat();
    assert_eq!(refused(&file, 0x52), (17, 78));
    assert_eq!(refused(&file, 0x53), (17, 82 + 30));
    let file = [&listed[..], &cool].concat();
    assert_eq!(refused(&file, 0x52), (17, 30));
    // Records that can go down stand before.
    let file = [a1_by_kind().concat(), cool, listed].concat();
    assert_eq!(refused(&file, 0x52), (17, 78 + 82 + 83 + 78));
    assert_eq!(refused(&file, 0x53), (17, 78 + 82 + 83 + 82 + 30));
    // The last of 500.
    let file = [a1().repeat(499), a1_53(WARM)].concat();
    assert_eq!(refused(&file, 0x52), (17, 499 * 78 + 78));
}

#[test]
fn every_fault_of_a_later_record_comes_before_17() {
    let (cool, listed) = (a1_53(COOL), a1_54(FIRST, COOL));
    for (later, rule, at) in [
        (bytes("52 00"), 2, 0),
        (bytes("52 0001"), 2, 0),
        (bytes("52 0100"), 2, 0),
        (bytes("51 0000"), 3, 0),
        (bytes("55 0000"), 3, 0),
        (outer(0x52, &["01"]), 5, 3),
        (outer(0x54, &["01 0002 41"]), 5, 3),
        (outer(0x53, &A1_FIELDS), 6, 78),
        (a1_with(&["07 0005 00006407D0"]), 7, 30),
        (a1_with(&["05 0001 06"]), 8, 21),
        (a1_53("10 0001 1A"), 8, 78),
        (a1_with(&["07 0008 01320000 01320000"]), 9, 30),
        (a1_with(&["07 0004 006307D0"]), 10, 30),
        (a1_54("07 0005 0101 64 07D0", MILD), 16, 30),
    ] {
        for (first, target) in [(&cool, 0x52), (&listed, 0x52), (&listed, 0x53)] {
            let file = [&first[..], &later].concat();
            assert_eq!(refused(&file, target), (rule, first.len() + at));
        }
    }
    let mut file = [a1_53(COOL), a1().repeat(499)].concat();
    file.push(0x52);
    assert_eq!(refused(&file, 0x52), (4, 82 + 499 * 78));
}

#[test]
fn every_fault_of_the_record_comes_before_17() {
    // Behind a field 07 that is in the way: nothing left, and field 08 out of its range.
    let wide = [&A1_FIELDS[..6], &[FIRST]].concat();
    let high = [&wide[..], &["08 0002 01F5"]].concat();
    for target in [0x52, 0x53] {
        assert_eq!(refused(&outer(0x54, &wide), target), (6, 38));
        assert_eq!(refused(&outer(0x54, &high), target), (8, 38));
    }
    // Behind such a field 10.
    let more = [&A1_FIELDS[..], &[COOL, "00"]].concat();
    assert_eq!(refused(&outer(0x53, &more), 0x52), (6, 82));
    // 16 at the same field 07.
    let lacking = a1_54("07 000A  0100 32 0000  0101 32 0000", COOL);
    for target in TAGS {
        assert_eq!(refused(&lacking, target), (16, 30));
    }
    for target in TAGS {
        assert_eq!(refused(&[], target), (1, 0));
    }
}

#[test]
fn a_target_other_than_the_three_comes_before_all() {
    for target in (0..=255).filter(|target| !TAGS.contains(target)) {
        for file in [a1(), vec![], bytes("55 0000"), a1_54(LAST, COOL)] {
            for lent in [vec![], species(), bad_list()] {
                assert_eq!(refused_with(&lent, &file, target), (3, 0));
            }
        }
    }
}

#[test]
fn a_bad_list_comes_before_the_file() {
    for target in TAGS {
        for file in [a1(), vec![], bytes("55 0000"), a1_54(LAST, COOL)] {
            assert_eq!(refused_with(&bad_list(), &file, target), (15, 20));
        }
    }
}

#[test]
fn the_buffer_comes_last() {
    for file in a1_by_kind().map(|record| record.repeat(2)) {
        for target in TAGS {
            let expected = moved(&file, target);
            let room = expected.len();
            let mut out = vec![0xEE; room];
            assert_eq!(convert(&file, &[], target, &mut out), Ok(room));
            assert_eq!(out, expected);
            assert_eq!(refused_in(room - 1, &file, &[], target), (11, 0));
            assert_eq!(refused_in(0, &file, &[], target), (11, 0));
        }
    }
}
