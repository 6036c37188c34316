//! The rain sampler of document 02, E3.

mod common;

use common::a1;
use forest::{judge, months_from_bytes, read_record, sample, Month, Reading, Refusal, Site};
use Reading::{Below, Measured, Missing};

fn a1_site() -> Site {
    read_record(&a1(), &[]).unwrap()
}

fn month(rain: u16, sulphate: Reading, nitrate: Reading, ammonium: Reading) -> Month {
    Month {
        rain,
        sulphate,
        nitrate,
        ammonium,
    }
}

const DRY: Month = Month {
    rain: 0,
    sulphate: Measured(0.0),
    nitrate: Measured(0.0),
    ammonium: Measured(0.0),
};

/// Twelve months of which the first are given; the others are dry.
fn year(first: &[Month]) -> [Month; 12] {
    let mut months = [DRY; 12];
    months[..first.len()].copy_from_slice(first);
    months
}

fn pair(months: &[Month; 12]) -> Result<(u16, u16), (u8, usize)> {
    sample(&a1_site(), &[], months)
        .map(|sampled| (sampled.sulphur, sampled.nitrogen))
        .map_err(|Refusal { rule, offset }| (rule as u8, offset))
}

#[test]
fn micrograms_from_bits() {
    let micrograms = |bits| {
        let measured = Measured(f32::from_bits(bits)).micrograms();
        assert_eq!(measured, Below(f32::from_bits(bits)).micrograms());
        measured.map_err(|rule| rule as u8)
    };
    // 0, minus zero, the least and the greatest subnormal.
    assert_eq!(micrograms(0x0000_0000), Ok(0));
    assert_eq!(micrograms(0x8000_0000), Ok(0));
    assert_eq!(micrograms(0x0000_0001), Ok(1));
    assert_eq!(micrograms(0x007F_FFFF), Ok(1));
    // 0.001 lies above one thousandth, the float before it below; 0.1 above one tenth; 0.5 is exact.
    assert_eq!(micrograms(0x3A83_126F), Ok(2));
    assert_eq!(micrograms(0x3A83_126E), Ok(1));
    assert_eq!(micrograms(0x3DCC_CCCD), Ok(101));
    assert_eq!(micrograms(0x3F00_0000), Ok(500));
    // 1000, the next float above, infinities, NaN, and the least below zero.
    assert_eq!(micrograms(0x447A_0000), Ok(1_000_000));
    for bits in [
        0x447A_0001,
        0x7F80_0000,
        0xFF80_0000,
        0x7FC0_0000,
        0x7F80_0001,
        0xFFFF_FFFF,
        0x8000_0001,
        0xBF80_0000,
    ] {
        assert_eq!(micrograms(bits), Err(12), "{bits:08X}");
    }
    assert_eq!(Missing.micrograms().map_err(|rule| rule as u8), Err(13));
}

#[test]
fn sums_are_divided_once() {
    // 12 × 100 × 250 µg: 187.5 and 428.6.
    let quarter = month(100, Measured(0.25), Below(0.25), Measured(0.25));
    assert_eq!(pair(&[quarter; 12]), Ok((188, 429)));
    // 1 µg each month, of which each alone would give 1.
    let drop = month(1, Measured(0.0005), Measured(0.0005), Measured(0.0005));
    assert_eq!(pair(&[drop; 12]), Ok((1, 1)));
    // 1400 µg of nitrate and ammonium, 700 each, give 1, and apart they would give 2.
    let split = month(2, Measured(0.8), Measured(0.34999), Measured(0.34999));
    assert_eq!(pair(&year(&[split])), Ok((2, 1)));
    // 1000 + 600 µg of sulphur give 1, and one µg more gives 2.
    let half = month(2, Measured(0.5), Measured(0.0), Measured(0.0));
    let rest = month(600, Measured(0.0009), Measured(0.0), Measured(0.0));
    let one = month(1, Measured(0.0009), Measured(0.0), Measured(0.0));
    assert_eq!(pair(&year(&[half, rest])), Ok((1, 0)));
    assert_eq!(pair(&year(&[half, rest, one])), Ok((2, 0)));
}

#[test]
fn months_are_checked_in_order() {
    let nan = Measured(f32::NAN);
    let bad = |month, index| {
        let mut months = [DRY; 12];
        months[index] = month;
        pair(&months).unwrap_err()
    };
    assert_eq!(bad(month(1001, Missing, Missing, nan), 4), (8, 4));
    assert_eq!(bad(month(1000, nan, Missing, Missing), 11), (12, 11));
    assert_eq!(bad(month(0, Measured(3.0), Missing, nan), 2), (13, 2));
    assert_eq!(
        bad(month(0, Measured(3.0), Below(-1.0), Missing), 0),
        (12, 0)
    );
    assert_eq!(bad(month(0, Missing, Missing, Missing), 7), (13, 7));
    // A later month's fault comes before 14.
    let mut months = [month(1000, Measured(9.0), Measured(9.0), Measured(9.0)); 12];
    assert_eq!(pair(&months), Err((14, 12)));
    months[11].ammonium = Missing;
    assert_eq!(pair(&months), Err((13, 11)));
}

#[test]
fn a_pair_of_65_535_and_no_more() {
    // 1000 × 104,856 µg are 65,535 × 1600; 1000 × 91,749 are 65,535 × 1400. The floats lie in the last thousandth below.
    let sulphate = Measured(104.8555);
    let nitrate = Measured(91.7485);
    assert_eq!(sulphate.micrograms().ok(), Some(104_856));
    assert_eq!(nitrate.micrograms().ok(), Some(91_749));
    let full = month(1000, sulphate, nitrate, Measured(0.0));
    assert_eq!(pair(&year(&[full])), Ok((65_535, 65_535)));
    let drop = |s, n, a| month(1, Measured(s), Measured(n), Measured(a));
    let least = 0.0005;
    assert_eq!(pair(&year(&[full, drop(least, 0.0, 0.0)])), Err((14, 12)));
    assert_eq!(pair(&year(&[full, drop(0.0, least, 0.0)])), Err((14, 12)));
    assert_eq!(pair(&year(&[full, drop(0.0, 0.0, least)])), Err((14, 12)));
}

#[test]
fn the_pair_is_judged_as_by_key() {
    // 800,000 µg of sulphur, and 979,800 of nitrogen: A1's own pair 500, 700, at a site that came with another.
    let months = year(&[
        month(1000, Measured(0.5), Measured(0.5), Measured(0.25)),
        month(600, Below(0.5), Measured(0.375), Below(0.0078125)),
    ]);
    let site = Site {
        sulphur: 200,
        nitrogen: 240,
        ..a1_site()
    };
    let sampled = sample(&site, &[], &months).unwrap();
    assert_eq!((sampled.sulphur, sampled.nitrogen), (500, 700));
    assert_eq!(sampled.judgement, judge(&a1_site(), &[]).unwrap());
    assert_ne!(sampled.judgement, judge(&site, &[]).unwrap());
}

#[test]
fn the_site_is_checked_first() {
    let site = Site {
        drainage: 6,
        ..a1_site()
    };
    let months = year(&[month(0, Missing, Missing, Missing)]);
    let Refusal { rule, offset } = sample(&site, &[], &months).unwrap_err();
    assert_eq!((rule as u8, offset), (8, 0));
}

#[test]
fn months_of_bytes() {
    let mut bytes = [0; 204];
    // Month 1: 258 mm, 0.5 measured, below 0.25, missing by a case above 2.
    bytes[17..34].copy_from_slice(&[
        1, 2, 0, 0x3F, 0, 0, 0, 1, 0x3E, 0x80, 0, 0, 3, 0x3F, 0, 0, 0,
    ]);
    let months = months_from_bytes(&bytes).unwrap();
    assert_eq!(months[1].rain, 258);
    assert!(matches!(months[1].sulphate, Measured(0.5)));
    assert!(matches!(months[1].nitrate, Below(0.25)));
    assert!(matches!(months[1].ammonium, Missing));
    assert_eq!(pair(&months), Err((13, 1)));
    for length in [0, 17, 203, 205, 221] {
        let Refusal { rule, offset } = months_from_bytes(&vec![0; length]).unwrap_err();
        assert_eq!((rule as u8, offset), (7, 0));
    }
}
