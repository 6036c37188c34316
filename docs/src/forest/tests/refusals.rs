//! Each refusal of a file and of a site value with its offset, with those of field 10; every one leaves the buffer as it was.
//! Those of species stand in `species.rs`, that of a conversion in `convert.rs`, what is left of them at a reserve in
//! `reserves.rs`, and those of field 11 and of a negative CLmaxS in `bicarbonate.rs`.

mod common;

use common::{a1, a1_with, bytes, outer, A1_FIELDS};
use forest::{Kind, Refusal, Site};

fn record(fields: &[&str]) -> Vec<u8> {
    outer(0x52, fields)
}

/// The refusal of a file, as its number and offset. The pages give the same, and the single-record read for a file of one
/// record.
fn refused(file: &[u8]) -> (u8, usize) {
    let mut out = [0xEE; 4096];
    let Refusal { rule, offset } = forest::list(file, &[], &mut out).unwrap_err();
    assert_eq!(out, [0xEE; 4096]);
    let pages = forest::pages(file, &[], &mut out).unwrap_err();
    assert_eq!(pages, Refusal { rule, offset });
    assert_eq!(out, [0xEE; 4096]);
    let single = forest::rewrite(file, &[], &mut out).unwrap_err();
    assert_eq!(single, Refusal { rule, offset });
    assert_eq!(out, [0xEE; 4096]);
    (rule as u8, offset)
}

#[test]
fn no_bytes() {
    assert_eq!(refused(&[]), (1, 0));
}

#[test]
fn outer_field() {
    assert_eq!(refused(&bytes("52 00")), (2, 0));
    assert_eq!(refused(&bytes("00")), (2, 0));
    assert_eq!(refused(&a1()[..77]), (2, 0));
    assert_eq!(refused(&bytes("51 0100")), (3, 0));
    assert_eq!(refused(&bytes("56 0100")), (3, 0));
    for tag in ["53", "54", "55"] {
        assert_eq!(refused(&bytes(&format!("{tag} 00"))), (2, 0));
        assert_eq!(refused(&bytes(&format!("{tag} 0100"))), (2, 0));
    }
    let mut above_255 = bytes("52 0100");
    above_255.resize(400, 0);
    assert_eq!(refused(&above_255), (2, 0));
}

#[test]
fn outer_field_of_a_second_record() {
    let refused = |second: &str| {
        let file = [a1(), bytes(second)].concat();
        let refusal = forest::list(&file, &[], &mut [0; 200]).unwrap_err();
        (refusal.rule as u8, refusal.offset)
    };
    assert_eq!(refused("54"), (2, 78));
    assert_eq!(refused("55"), (2, 78));
    assert_eq!(refused("51 0000"), (3, 78));
    assert_eq!(refused("56 0000"), (3, 78));
    for tag in ["52", "53", "54", "55"] {
        assert_eq!(refused(&format!("{tag} 0001")), (2, 78));
        assert_eq!(refused(&format!("{tag} 0000")), (6, 81));
        assert_eq!(refused(&format!("{tag} 0001 01")), (5, 81));
        assert_eq!(refused(&format!("{tag} 0006 01 0003 4A4A40")), (8, 81));
    }
}

#[test]
fn five_hundred_records_and_no_more() {
    let mut file = a1().repeat(500);
    let mut out = [0xEE; 20000];
    assert_eq!(forest::list(&file, &[], &mut out), Ok(51 + 500 * 35));
    file.push(0);
    let refusal = forest::list(&file, &[], &mut out).unwrap_err();
    assert_eq!((refusal.rule as u8, refusal.offset), (4, 39000));
    let refusal = forest::list(&a1().repeat(501), &[], &mut out).unwrap_err();
    assert_eq!((refusal.rule as u8, refusal.offset), (4, 39000));
}

#[test]
fn a_fault_before_the_501st_record_comes_first() {
    let mut file = a1().repeat(501);
    file[499 * 78 + 3] = 0x02;
    let refusal = forest::list(&file, &[], &mut [0; 20000]).unwrap_err();
    assert_eq!((refusal.rule as u8, refusal.offset), (6, 499 * 78 + 3));
}

#[test]
fn a_single_record_has_nothing_after_it() {
    let two = a1().repeat(2);
    let refusal = forest::read_record(&two, &[]).unwrap_err();
    assert_eq!((refusal.rule as u8, refusal.offset), (4, 78));
    let refusal = forest::read_record(&two[..79], &[]).unwrap_err();
    assert_eq!((refusal.rule as u8, refusal.offset), (4, 78));
}

#[test]
fn inner_field_cut() {
    assert_eq!(refused(&record(&["01"])), (5, 3));
    assert_eq!(refused(&record(&["0200"])), (5, 3));
    assert_eq!(refused(&record(&["01 0002 41"])), (5, 3));
    assert_eq!(refused(&record(&["01 0002 4131", "02 0100 01"])), (5, 8));
    // The inner length counts against its record, though the file goes on.
    let file = [record(&["01 0003 4131"]), a1()].concat();
    assert_eq!(refused(&file), (5, 3));
}

#[test]
fn inner_tag() {
    assert_eq!(refused(&record(&[])), (6, 3));
    assert_eq!(refused(&record(&["02 0001 01"])), (6, 3));
    assert_eq!(refused(&record(&["00 FFFF"])), (6, 3));
    assert_eq!(refused(&record(&A1_FIELDS[..2])), (6, 12));
    assert_eq!(refused(&record(&A1_FIELDS[..14])), (6, 71));
    let twice = [&A1_FIELDS[..2], &A1_FIELDS[1..]].concat();
    assert_eq!(refused(&record(&twice)), (6, 12));
}

#[test]
fn bytes_after_the_last_field() {
    let after = |more| record(&[&A1_FIELDS[..], &[more]].concat());
    assert_eq!(refused(&after("0F")), (6, 78));
    assert_eq!(refused(&after("00 00")), (6, 78));
    assert_eq!(refused(&after("10 0001 00")), (6, 78));
    assert_eq!(refused(&after("10 0001 0D")), (6, 78));
    let after = |more| ending(&["10 0001 0D", more]);
    assert_eq!(refused(&after("10")), (6, 82));
    assert_eq!(refused(&after("00 00")), (6, 82));
    assert_eq!(refused(&after("10 0001 0D")), (6, 82));
    assert_eq!(refused(&after("11 0001 00")), (6, 82));
    // Up to the greatest length of an outer field.
    assert_eq!(refused(&after(&"10".repeat(255 - 79))), (6, 82));
}

/// A record of kind 53 with A1's fields, and these after them.
fn ending(more: &[&str]) -> Vec<u8> {
    outer(0x53, &[&A1_FIELDS[..], more].concat())
}

#[test]
fn another_outer_tag() {
    let good = ending(&["10 0001 0D"]);
    assert_eq!(forest::list(&good, &[], &mut [0; 86]), Ok(86));
    for tag in (0x00..=0xFF).filter(|tag| !(0x52..=0x55).contains(tag)) {
        let mut record = good.clone();
        record[0] = tag;
        assert_eq!(refused(&record), (3, 0));
    }
    // With the other of these two, the field is missing or one too many.
    assert_eq!(
        refused(&outer(0x52, &[&A1_FIELDS[..], &["10 0001 0D"]].concat())),
        (6, 78)
    );
    assert_eq!(refused(&outer(0x53, &A1_FIELDS)), (6, 78));
}

#[test]
fn no_field_10() {
    assert_eq!(refused(&ending(&[])), (6, 78));
    assert_eq!(refused(&outer(0x53, &A1_FIELDS[..14])), (6, 71));
    // The record's end, though the file goes on with what could be the field.
    for next in [&a1()[..], &bytes("10 0001 0D")] {
        let refusal = forest::list(&[ending(&[]), next.to_vec()].concat(), &[], &mut [0; 200]);
        let Refusal { rule, offset } = refusal.unwrap_err();
        assert_eq!((rule as u8, offset), (6, 78));
    }
    assert_eq!(refused(&ending(&["0F 0004 01F402BC"])), (6, 78));
    assert_eq!(refused(&ending(&["11 0001 0D"])), (6, 78));
    // Under 3 bytes come before the tag.
    assert_eq!(refused(&ending(&["11"])), (5, 78));
    assert_eq!(refused(&ending(&["11 00"])), (5, 78));
}

#[test]
fn a_bad_field_10() {
    assert_eq!(refused(&ending(&["10"])), (5, 78));
    assert_eq!(refused(&ending(&["10 00"])), (5, 78));
    assert_eq!(refused(&ending(&["10 0001"])), (5, 78));
    assert_eq!(refused(&ending(&["10 0003 0D00"])), (5, 78));
    assert_eq!(refused(&ending(&["10 0101 0D"])), (5, 78));
    assert_eq!(refused(&ending(&["10 0000"])), (7, 78));
    assert_eq!(refused(&ending(&["10 0002 000D"])), (7, 78));
    assert_eq!(refused(&ending(&["10 0002 1A1A"])), (7, 78));
    assert_eq!(refused(&ending(&["10 0001 1A"])), (8, 78));
    assert_eq!(refused(&ending(&["10 0001 FB"])), (8, 78));
    assert_eq!(refused(&ending(&["10 0001 FF"])), (8, 78));
    // Its own faults come before bytes after it, and those of a field before it first.
    assert_eq!(refused(&ending(&["10 0001 1A 00"])), (8, 78));
    let fields = [
        &A1_FIELDS[..13],
        &["0E 0002 0000", A1_FIELDS[14], "10 0001 1A"],
    ]
    .concat();
    assert_eq!(refused(&outer(0x53, &fields)), (8, 66));
}

#[test]
fn a_fault_in_a_mixed_file() {
    let mild = ending(&["10 0001 0D"]);
    let refused = |last: &[u8]| {
        let file = [&mild, &a1(), &mild, last].concat();
        let refusal = forest::list(&file, &[], &mut [0; 400]).unwrap_err();
        (refusal.rule as u8, refusal.offset)
    };
    // 82 + 78 + 82 bytes.
    assert_eq!(refused(&mild[..81]), (2, 242));
    assert_eq!(refused(&outer(0x56, &A1_FIELDS)), (3, 242));
    assert_eq!(refused(&ending(&["10 0001"])), (5, 242 + 78));
    assert_eq!(refused(&ending(&[])), (6, 242 + 78));
    assert_eq!(refused(&ending(&["10 0001 0D 00"])), (6, 242 + 82));
    assert_eq!(
        refused(&record(&[&A1_FIELDS[..], &["10 0001 0D"]].concat())),
        (6, 242 + 78)
    );
    assert_eq!(refused(&ending(&["10 0000"])), (7, 242 + 78));
    assert_eq!(refused(&ending(&["10 0001 1A"])), (8, 242 + 78));
    // A single record of kind 53 has nothing after it either.
    let refusal = forest::read_record(&[&mild[..], &a1()].concat(), &[]).unwrap_err();
    assert_eq!((refusal.rule as u8, refusal.offset), (4, 82));
}

#[test]
fn five_hundred_records_of_both_kinds() {
    let pair = [a1(), ending(&["10 0001 0D"])].concat();
    let mut out = [0; 20_000];
    let full = pair.repeat(250);
    assert_eq!(forest::list(&full, &[], &mut out), Ok(51 + 500 * 35));
    let refusal = forest::list(&[&full[..], &[0x53]].concat(), &[], &mut out).unwrap_err();
    assert_eq!((refusal.rule as u8, refusal.offset), (4, 250 * (78 + 82)));
}

#[test]
fn field_lengths() {
    assert_eq!(refused(&a1_with(&["01 0000"])), (7, 3));
    assert_eq!(refused(&a1_with(&["01 0009 414141414141414141"])), (7, 3));
    assert_eq!(refused(&a1_with(&["02 0000"])), (7, 8));
    assert_eq!(refused(&a1_with(&["02 0002 0101"])), (7, 8));
    assert_eq!(refused(&a1_with(&["03 0001 0A"])), (7, 12));
    assert_eq!(refused(&a1_with(&["04 0002 0032"])), (7, 17));
    assert_eq!(refused(&a1_with(&["05 0002 0001"])), (7, 21));
    assert_eq!(refused(&a1_with(&["06 0001 C8"])), (7, 25));
    assert_eq!(refused(&a1_with(&["07 0005 006407D000"])), (7, 30));
    let five = "07 0014 001407D0 011407D0 021407D0 031407D0 041407D0";
    assert_eq!(refused(&a1_with(&[five])), (7, 30));
    assert_eq!(refused(&a1_with(&["08 0003 000032"])), (7, 37));
    assert_eq!(refused(&a1_with(&["09 0002 0050"])), (7, 42));
    assert_eq!(refused(&a1_with(&["0A 0001 2C"])), (7, 46));
    assert_eq!(refused(&a1_with(&["0B 0001 E8"])), (7, 51));
    assert_eq!(refused(&a1_with(&["0C 0001 B8"])), (7, 56));
    assert_eq!(refused(&a1_with(&["0D 0001 E8"])), (7, 61));
    assert_eq!(refused(&a1_with(&["0E 0001 14"])), (7, 66));
    assert_eq!(refused(&a1_with(&["0F 0002 01F4"])), (7, 71));
    assert_eq!(refused(&a1_with(&["0F 0005 01F402BC00"])), (7, 71));
}

#[test]
fn values_just_out_of_range() {
    for name in ["01 0002 4061", "01 0002 4120", "01 0002 005A"] {
        assert_eq!(refused(&a1_with(&[name])), (8, 3), "{name}");
    }
    for (field, offset) in [
        ("02 0001 05", 8),
        ("03 0002 0A5B", 12),
        ("03 0002 C864", 12),
        ("04 0001 00", 17),
        ("04 0001 C9", 17),
        ("05 0001 06", 21),
        ("06 0002 0000", 25),
        ("06 0002 0BB9", 25),
        ("07 0004 096407D0", 30),
        ("07 0004 000007D0", 30),
        ("07 0004 006507D0", 30),
        ("07 0004 00644E21", 30),
        ("08 0002 01F5", 37),
        ("09 0001 45", 42),
        ("09 0001 56", 42),
        ("0A 0002 1389", 46),
        ("0B 0002 0063", 51),
        ("0B 0002 4E21", 51),
        ("0C 0002 0000", 56),
        ("0C 0002 2711", 56),
        ("0D 0002 0000", 61),
        ("0D 0002 1389", 61),
        ("0E 0002 0000", 66),
        ("0E 0002 03E9", 66),
    ] {
        assert_eq!(refused(&a1_with(&[field])), (8, offset), "{field}");
    }
}

#[test]
fn values_at_both_ends_of_their_range() {
    let least = a1_with(&[
        "01 0001 2D",
        "02 0001 00",
        "03 0002 0000",
        "04 0001 01",
        "05 0001 00",
        "06 0002 0001",
        "07 0008 00010000 08630000",
        "08 0002 0000",
        "09 0001 46",
        "0A 0002 0000",
        "0B 0002 0064",
        "0C 0002 0001",
        "0D 0002 0001",
        "0E 0002 0001",
        "0F 0004 00000000",
    ]);
    let greatest = a1_with(&[
        "01 0008 4130395A2D2D2D2D",
        "02 0001 04",
        "03 0002 6400",
        "04 0001 C8",
        "05 0001 05",
        "06 0002 0BB8",
        "07 0010 00194E20 01194E20 02194E20 08194E20",
        "08 0002 01F4",
        "09 0001 55",
        "0A 0002 1388",
        "0B 0002 4E20",
        "0C 0002 2710",
        "0D 0002 1388",
        "0E 0002 03E8",
        "0F 0004 FFFFFFFF",
    ]);
    assert_eq!(greatest.len(), 96);
    let greatest_53 = [&[0x53, 0, 97], &greatest[3..], &[0x10, 0, 1, 25]].concat();
    for record in [least, greatest, greatest_53] {
        let mut out = [0; 100];
        let length = forest::rewrite(&record, &[], &mut out).unwrap();
        assert_eq!(out[..length], record);
    }
}

#[test]
fn species_rise() {
    assert_eq!(refused(&a1_with(&["07 0008 003207D0 003207D0"])), (9, 30));
    assert_eq!(refused(&a1_with(&["07 0008 013207D0 003207D0"])), (9, 30));
    // 8 is tried over all entries before 9, and 9 before 10.
    assert_eq!(
        refused(&a1_with(&["07 000C 013207D0 003207D0 02004E20"])),
        (8, 30)
    );
    assert_eq!(refused(&a1_with(&["07 0008 013207D0 003107D0"])), (9, 30));
}

#[test]
fn shares_add_up_to_100() {
    assert_eq!(refused(&a1_with(&["07 0004 006307D0"])), (10, 30));
    assert_eq!(refused(&a1_with(&["07 0008 003207D0 013307D0"])), (10, 30));
    // 356 is 100 more than 256.
    let modulo_256 = "07 0010 006407D0 016407D0 026407D0 033807D0";
    assert_eq!(refused(&a1_with(&[modulo_256])), (10, 30));
}

#[test]
fn the_leftmost_fault_is_given() {
    let file = a1_with(&["04 0001 00", "06 0001 C8"]);
    assert_eq!(refused(&file), (8, 17));
}

#[test]
fn buffer_shorter_than_the_output() {
    let mut out = [0xEE; 85];
    let refusal = forest::list(&a1(), &[], &mut out).unwrap_err();
    assert_eq!((refusal.rule as u8, refusal.offset), (11, 0));
    let refusal = forest::report(&a1(), &[], &mut out).unwrap_err();
    assert_eq!((refusal.rule as u8, refusal.offset), (11, 0));
    let refusal = forest::rewrite(&a1(), &[], &mut out[..77]).unwrap_err();
    assert_eq!((refusal.rule as u8, refusal.offset), (11, 0));
    let refusal = forest::report(&[], &[], &mut out[..14]).unwrap_err();
    assert_eq!((refusal.rule as u8, refusal.offset), (11, 0));
    assert_eq!(out, [0xEE; 85]);
    // 51 bytes of the header and 35 of A1's line.
    assert_eq!(forest::list(&a1(), &[], &mut [0; 86]), Ok(86));
}

#[test]
fn a_fault_comes_before_a_short_buffer() {
    let refusal = forest::list(&a1()[..77], &[], &mut []).unwrap_err();
    assert_eq!((refusal.rule as u8, refusal.offset), (2, 0));
}

#[test]
fn site_values_are_checked_in_tag_order_at_offset_0() {
    let good = forest::read_record(&a1(), &[]).unwrap();
    assert_eq!(forest::check(&good, &[]), Ok(()));
    let refused = |site: &Site| {
        let refusal = forest::check(site, &[]).unwrap_err();
        let mut out = [0xEE; 96];
        assert_eq!(forest::write_record(site, &[], &mut out), Err(refusal));
        assert_eq!(out, [0xEE; 96]);
        assert_eq!(forest::loads(site, &[]), Err(refusal));
        assert_eq!(forest::judge(site, &[]), Err(refusal));
        assert_eq!(refusal.offset, 0);
        refusal.rule as u8
    };
    let mut site = Site {
        leachate_nitrogen: 0,
        ..good
    };
    assert_eq!(refused(&site), 8);
    site.stand[0].share = 99;
    assert_eq!(refused(&site), 10);
    site.entries = 2;
    site.stand[1] = site.stand[0];
    assert_eq!(refused(&site), 9);
    site.stand[1].growth = 20001;
    assert_eq!(refused(&site), 8);
    site.entries = 5;
    assert_eq!(refused(&site), 7);
    site.percolation = 3001;
    assert_eq!(refused(&site), 8);
    site.name_length = 9;
    assert_eq!(refused(&site), 7);
    site.name_length = 0;
    assert_eq!(refused(&site), 7);
}

#[test]
fn the_temperature_of_a_site_value_is_checked_last() {
    let good = Site {
        kind: Kind::Tag53,
        temperature: 25,
        ..forest::read_record(&a1(), &[]).unwrap()
    };
    assert_eq!(forest::check(&good, &[]), Ok(()));
    let refused = |site: &Site| {
        let Refusal { rule, offset } = forest::check(site, &[]).unwrap_err();
        let mut out = [0xEE; 100];
        assert_eq!(
            forest::write_record(site, &[], &mut out),
            Err(Refusal { rule, offset })
        );
        assert_eq!(out, [0xEE; 100]);
        assert_eq!(forest::loads(site, &[]), Err(Refusal { rule, offset }));
        assert_eq!(forest::level(site, &[]), Err(Refusal { rule, offset }));
        assert_eq!(forest::judge(site, &[]), Err(Refusal { rule, offset }));
        (rule as u8, offset)
    };
    for temperature in 26..=255 {
        let mut site = Site {
            temperature,
            ..good
        };
        assert_eq!(refused(&site), (8, 0));
        site.stand[0].share = 99;
        assert_eq!(refused(&site), (10, 0));
    }
}

#[test]
fn what_lies_past_name_and_stand_is_no_part_of_a_site() {
    let good = forest::read_record(&a1(), &[]).unwrap();
    let mut site = good;
    site.name[2..].fill(0xFF);
    site.stand[1].species = 255;
    assert_eq!(forest::check(&site, &[]), Ok(()));
    assert_eq!(forest::judge(&site, &[]), forest::judge(&good, &[]));
    let mut out = [0; 78];
    assert_eq!(forest::write_record(&site, &[], &mut out), Ok(78));
    assert_eq!(out[..], a1());
}
