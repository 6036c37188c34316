//! The record A1 and its parts, and what all calls refuse. No test takes all of it.

#![allow(dead_code)]

use forest::{
    check, judge, level, list, loads, pages, read_record, report, rewrite, sample, write_record,
    Month, Reading, Refusal, Site,
};

/// The fields of A1 by tag, as document 01 prints them.
pub const A1_FIELDS: [&str; 15] = [
    "01 0002 4131",
    "02 0001 01",
    "03 0002 0A41",
    "04 0001 32",
    "05 0001 01",
    "06 0002 00C8",
    "07 0004 006407D0",
    "08 0002 0032",
    "09 0001 50",
    "0A 0002 012C",
    "0B 0002 03E8",
    "0C 0002 0BB8",
    "0D 0002 03E8",
    "0E 0002 0014",
    "0F 0004 01F402BC",
];

/// Field 10 at 8 °C.
pub const MILD: &str = "10 0001 0D";

/// A1's field 07 with two bytes for its species.
pub const PINE: &str = "07 0005 0000 64 07D0";

/// A field 07 of four entries with one byte for a species, and with two.
pub const FOUR: &str = "07 0010  00 19 0000  01 19 0001  05 19 0100  08 19 4E20";
pub const FOUR_WIDE: &str = "07 0014  0000 19 0000  0001 19 0001  0005 19 0100  0008 19 4E20";

/// The field 07 of a reserve.
pub const NO_STAND: &str = "07 0000";

/// A field 01 of eight bytes.
pub const LONG_NAME: &str = "01 0008 4F414B2D57454C4C";

pub fn bytes(hex: &str) -> Vec<u8> {
    let digits: Vec<u32> = hex
        .chars()
        .filter(|c| !c.is_whitespace())
        .map(|c| c.to_digit(16).expect("hexadecimal"))
        .collect();
    digits
        .chunks(2)
        .map(|pair| (pair[0] * 16 + pair[1]) as u8)
        .collect()
}

/// An outer field with a tag, around the fields given.
pub fn outer(tag: u8, fields: &[&str]) -> Vec<u8> {
    let value = bytes(&fields.concat());
    let mut record = vec![tag, 0, value.len() as u8];
    record.extend(value);
    record
}

/// A1 with an outer tag and some of its fields replaced, those with the tags of the given ones; given fields 10
/// and 11 stand after them.
pub fn a1_as(tag: u8, changed: &[&str]) -> Vec<u8> {
    let fields = A1_FIELDS.map(|field| {
        let same = changed.iter().find(|other| other[..2] == field[..2]);
        *same.unwrap_or(&field)
    });
    let more = changed.iter().filter(|field| field[..2] > *"0F");
    let fields: Vec<&str> = fields.iter().chain(more).copied().collect();
    outer(tag, &fields)
}

/// As [`a1_as`], of kind 52.
pub fn a1_with(changed: &[&str]) -> Vec<u8> {
    a1_as(0x52, changed)
}

pub fn a1() -> Vec<u8> {
    a1_with(&[])
}

pub fn number_and_offset<T: std::fmt::Debug>(refused: Result<T, Refusal>) -> (u8, usize) {
    let Refusal { rule, offset } = refused.unwrap_err();
    (rule as u8, offset)
}

/// The refusal of a record with a list, by every call that takes a file or a record; each leaves the buffer as it was. The
/// report is its line.
pub fn refused(record: &[u8], lent: &[u8]) -> (u8, usize) {
    let mut out = [0xEE; 4096];
    let expected = number_and_offset(list(record, lent, &mut out));
    assert_eq!(number_and_offset(pages(record, lent, &mut out)), expected);
    assert_eq!(number_and_offset(rewrite(record, lent, &mut out)), expected);
    assert_eq!(number_and_offset(read_record(record, lent)), expected);
    assert_eq!(out, [0xEE; 4096]);
    let line = format!("refused {} at {}\n", expected.0, expected.1);
    assert_eq!(report(record, lent, &mut out), Ok(line.len()));
    assert_eq!(out[..line.len()], *line.as_bytes());
    expected
}

pub const DRY: Month = Month {
    rain: 0,
    sulphate: Reading::Measured(0.0),
    nitrate: Reading::Measured(0.0),
    ammonium: Reading::Measured(0.0),
};

/// The refusal of a site value with a list, by every call that takes one.
pub fn site_refused(site: &Site, lent: &[u8]) -> (u8, usize) {
    let mut out = [0xEE; 109];
    let expected = number_and_offset(check(site, lent));
    assert_eq!(number_and_offset(loads(site, lent)), expected);
    assert_eq!(number_and_offset(level(site, lent)), expected);
    assert_eq!(number_and_offset(judge(site, lent)), expected);
    let missing = Month {
        sulphate: Reading::Missing,
        ..DRY
    };
    assert_eq!(
        number_and_offset(sample(site, lent, &[missing; 12])),
        expected
    );
    assert_eq!(
        number_and_offset(write_record(site, lent, &mut out)),
        expected
    );
    assert_eq!(out, [0xEE; 109]);
    expected
}

/// A year with A1's pair.
pub fn year_of_a1() -> [Month; 12] {
    // 800,000 µg of sulphur and 980,000 of nitrogen: the pair 500, 700.
    let mut months = [DRY; 12];
    months[3] = Month {
        rain: 800,
        sulphate: Reading::Measured(1.0),
        nitrate: Reading::Measured(1.0),
        ..DRY
    };
    months[8] = Month {
        rain: 180,
        nitrate: Reading::Measured(1.0),
        ..DRY
    };
    months
}
