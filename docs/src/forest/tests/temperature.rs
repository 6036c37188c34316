//! The temperature of document 02, E5: t, the weathering, and records and site values of kind 53.

mod common;

use common::{a1, a1_as, a1_with, bytes};
use forest::{
    judge, level, loads, read_record, sample, temperature_factor, terms, write_record, Entry,
    Found, Kind, Loads, Month, Reading, Site, Verdict,
};

/// t at −5 to 20 °C.
const FACTORS: [i64; 26] = [
    537, 565, 593, 623, 654, 687, 721, 756, 793, 831, 871, 912, 955, 1000, 1046, 1095, 1145, 1197,
    1251, 1307, 1365, 1426, 1488, 1553, 1620, 1690,
];

/// A1's fields in a record of kind 53, with a temperature byte.
fn a1_at(temperature: u8) -> Vec<u8> {
    a1_as(0x53, &[&format!("10 0001 {temperature:02X}")])
}

fn a1_site_at(temperature: u8) -> Site {
    read_record(&a1_at(temperature), &[]).unwrap()
}

#[test]
fn t_at_every_temperature() {
    for (temperature, expected) in (0..).zip(FACTORS) {
        assert_eq!(temperature_factor(&a1_site_at(temperature)), expected);
    }
    assert_eq!(temperature_factor(&a1_site_at(13)), 1000);
}

/// The sum differs from the power of e by less than 10⁻¹¹, and 1000 times it never lies within a hundredth of a half.
#[test]
fn t_is_nearest_to_the_power_of_e() {
    for (temperature, factor) in (0..).zip(FACTORS) {
        let celsius = f64::from(temperature) - 5.0;
        let x = 3600.0 * (celsius - 8.0) / (281.0 * (273.0 + celsius));
        let exact = 1000.0 * x.exp();
        assert!((exact - factor as f64).abs() < 0.49, "{celsius} {exact}");
    }
}

#[test]
fn a_record_of_kind_53_is_read_value_by_value() {
    let expected = Site {
        kind: Kind::Tag53,
        temperature: 25,
        ..read_record(&a1(), &[]).unwrap()
    };
    assert_eq!(a1_at(25).len(), 82);
    assert_eq!(a1_site_at(25), expected);
    // Kind 52 has no field for it, and gets that of 8 °C.
    let site = read_record(&a1(), &[]).unwrap();
    assert_eq!((site.kind, site.temperature), (Kind::Tag52, 13));
}

#[test]
fn a1_at_20_degrees() {
    // 250 × 50 × 1690 / 100,000 = 211.25; 211 × 80 / 100 = 168.8; 1500 × (300 + 168 − 181) / 1000 = 430.5.
    let site = a1_site_at(25);
    let terms = terms(&site, &[]).unwrap();
    assert_eq!(terms.weathering, 211);
    assert_eq!(terms.available, 168);
    assert_eq!(terms.nitrogen_uptake, 155);
    assert_eq!(terms.base_uptake, 181);
    assert_eq!(terms.aluminium_limit, 430);
    // al(895) is 430, al(896) 431, and hydrogen 179.
    assert_eq!(
        level(&site, &[]),
        Ok(Found {
            level: 895,
            compared: 11
        })
    );
    assert_eq!(terms.acid_leaching, 179 + 430);
    // 300 + 211 − 181 + 609; 939,000 / 900 is 1043.3.
    let expected = Loads {
        max_s: 939,
        min_n: 205,
        max_n: 1248,
        nut_n: 249,
    };
    assert_eq!(loads(&site, &[]), Ok(expected));
    // v = 500,000 + 900 × 495 − 939,000 = 6500, and 1900 × 6500 / 1,810,000 is 6.8.
    let over = Verdict::Over {
        region: 2,
        acid: 7,
        nutrient: 451,
    };
    assert_eq!(judge(&site, &[]).unwrap().verdict, over);
}

#[test]
fn a1_at_5_degrees_below_zero() {
    // 250 × 50 × 537 / 100,000 = 67.125; 67 × 80 / 100 = 53.6; 1500 × (300 + 53 − 181) / 1000 = 258.
    let site = a1_site_at(0);
    let terms = terms(&site, &[]).unwrap();
    assert_eq!(terms.weathering, 67);
    assert_eq!(terms.available, 53);
    assert_eq!(terms.base_uptake, 181);
    assert_eq!(terms.aluminium_limit, 258);
    // al(755) is 258, al(756) 259, and hydrogen 151.
    assert_eq!(
        level(&site, &[]),
        Ok(Found {
            level: 755,
            compared: 11
        })
    );
    assert_eq!(terms.acid_leaching, 151 + 258);
    // 300 + 67 − 181 + 409; 595,000 / 900 is 661.1.
    let expected = Loads {
        max_s: 595,
        min_n: 205,
        max_n: 866,
        nut_n: 249,
    };
    assert_eq!(loads(&site, &[]), Ok(expected));
    // v = 500,000 + 900 × 495 − 595,000 = 350,500, and 1900 × 350,500 / 1,810,000 is 367.9.
    let over = Verdict::Over {
        region: 2,
        acid: 368,
        nutrient: 451,
    };
    assert_eq!(judge(&site, &[]).unwrap().verdict, over);
}

#[test]
fn the_mark_goes_with_the_temperature() {
    let verdict = |site: Site, sulphur, nitrogen| {
        let site = Site {
            sulphur,
            nitrogen,
            ..site
        };
        judge(&site, &[]).unwrap().verdict
    };
    let over = |region, acid| Verdict::Over {
        region,
        acid,
        nutrient: 0,
    };
    // n = 35. At 8 °C v is 681,500 − 735,000; below zero 681,500 − 595,000 = 86,500, and 900 × v more than 35 × D.
    assert_eq!(verdict(a1_site_at(13), 650, 240), Verdict::Within);
    assert_eq!(verdict(a1_site_at(0), 650, 240), over(3, 35 + 650 - 595));
    assert_eq!(verdict(a1_site_at(13), 900, 205), over(4, 900 - 735));
    assert_eq!(verdict(a1_site_at(25), 900, 205), Verdict::Within);
}

#[test]
fn weathering_by_parent_material_and_texture() {
    // (500k − 250) × 100 × t / 100,000, down: 250, 750, 1250, 1750, 2750 and 9750 times t / 1000.
    let soils = [(10, 65), (4, 63), (10, 10), (40, 30), (70, 20)];
    let at_the_coldest = [
        [0; 5],
        [134, 671, 671, 1476, 1476],
        [402, 939, 939, 1476, 1476],
        [402, 939, 939, 1476, 1476],
        [5235; 5],
    ];
    let at_the_warmest = [
        [0; 5],
        [422, 2112, 2112, 4647, 4647],
        [1267, 2957, 2957, 4647, 4647],
        [1267, 2957, 2957, 4647, 4647],
        [16477; 5],
    ];
    for (temperature, by_parent_material) in [(0, at_the_coldest), (25, at_the_warmest)] {
        for (parent_material, row) in (0..).zip(by_parent_material) {
            for ((clay, sand), expected) in soils.into_iter().zip(row) {
                let site = Site {
                    parent_material,
                    clay,
                    sand,
                    root_depth: 100,
                    ..a1_site_at(temperature)
                };
                assert_eq!(terms(&site, &[]).unwrap().weathering, expected);
            }
        }
    }
}

#[test]
fn weathering_is_rounded_once() {
    let weathering = |root_depth, temperature| {
        let site = Site {
            root_depth,
            ..a1_site_at(temperature)
        };
        terms(&site, &[]).unwrap().weathering
    };
    // 250 × 1690 / 100,000 = 4.225, where 2 × 1690 / 1000 is 3.38.
    assert_eq!(weathering(1, 25), 4);
    // 250 × 3 × 537 / 100,000 = 4.0275, where 7 × 537 / 1000 is 3.759.
    assert_eq!(weathering(3, 0), 4);
    // 250 × 5 × 1046 / 100,000 = 13.075, where 12 × 1046 / 1000 is 12.552.
    assert_eq!(weathering(5, 14), 13);
}

#[test]
fn organic_parent_material_does_not_weather() {
    let peat = |site: Site| Site {
        parent_material: 0,
        ..site
    };
    let site = peat(read_record(&a1(), &[]).unwrap());
    for temperature in 0..=25 {
        let warm = peat(a1_site_at(temperature));
        assert_eq!(terms(&warm, &[]).unwrap().weathering, 0);
        assert_eq!(judge(&warm, &[]), judge(&site, &[]));
    }
}

#[test]
fn at_8_degrees_both_kinds_are_alike() {
    let mild = a1_site_at(13);
    let site = read_record(&a1(), &[]).unwrap();
    assert_eq!(terms(&mild, &[]).unwrap(), terms(&site, &[]).unwrap());
    assert_eq!(judge(&mild, &[]), judge(&site, &[]));
}

#[test]
fn kind_52_has_no_temperature() {
    let site = read_record(&a1(), &[]).unwrap();
    for temperature in 0..=255 {
        let other = Site {
            temperature,
            ..site
        };
        assert_eq!(forest::check(&other, &[]), Ok(()));
        assert_eq!(temperature_factor(&other), 1000);
        assert_eq!(terms(&other, &[]).unwrap(), terms(&site, &[]).unwrap());
        assert_eq!(judge(&other, &[]), judge(&site, &[]));
        let mut out = [0xEE; 82];
        assert_eq!(write_record(&other, &[], &mut out), Ok(78));
        assert_eq!(out[..78], a1());
        assert_eq!(out[78..], [0xEE; 4]);
    }
}

#[test]
fn site_values_of_the_c_interface() {
    let value = bytes(
        "4131000000000000 02 01 0A 41 32 01 00C8 006407D0 00000000 00000000 00000000 01
         0032 50 012C 03E8 0BB8 03E8 0014 01F4 02BC",
    );
    assert_eq!(
        Site::from_bytes(&value),
        Ok(read_record(&a1(), &[]).unwrap())
    );
    for temperature in 0..=25 {
        let longer = [&value[..], &[temperature]].concat();
        assert_eq!(Site::from_bytes(&longer), Ok(a1_site_at(temperature)));
    }
    // A bad temperature can be entered, and is refused.
    let bad = Site::from_bytes(&[&value[..], &[26]].concat()).unwrap();
    assert_eq!((bad.kind, bad.temperature), (Kind::Tag53, 26));
    assert_eq!(judge(&bad, &[]).unwrap_err().to_string(), "refused 8 at 0");
    for length in (0..200).filter(|length| ![50, 51, 55, 57].contains(length)) {
        let mut other = value.clone();
        other.resize(length, 13);
        let refusal = Site::from_bytes(&other).unwrap_err();
        assert_eq!(refusal.to_string(), "refused 7 at 0");
    }
}

#[test]
fn an_accepted_record_is_written_again() {
    for temperature in 0..=25 {
        let record = a1_at(temperature);
        let mut out = [0xEE; 84];
        assert_eq!(forest::rewrite(&record, &[], &mut out), Ok(82));
        assert_eq!(out[..82], record);
        assert_eq!(out[82..], [0xEE, 0xEE]);
        let refusal = forest::rewrite(&record, &[], &mut out[..81]).unwrap_err();
        assert_eq!(refusal.to_string(), "refused 11 at 0");
    }
}

#[test]
fn a_written_record_reads_back_to_its_site() {
    let stand = [0, 3, 5, 8].map(|species| Entry {
        species,
        share: 25,
        growth: 20000,
    });
    for temperature in 0..=25 {
        let full = Site {
            name: *b"MOUNTAIN",
            name_length: 8,
            stand,
            entries: 4,
            ..a1_site_at(temperature)
        };
        let mut out = [0; 100];
        assert_eq!(write_record(&full, &[], &mut out), Ok(100));
        assert_eq!(out[..3], [0x53, 0, 97]);
        assert_eq!(out[96..], [0x10, 0, 1, temperature]);
        assert_eq!(read_record(&out, &[]), Ok(full));
        // Kind 52 loses its temperature, which is no part of it.
        let plain = Site {
            kind: Kind::Tag52,
            ..full
        };
        assert_eq!(write_record(&plain, &[], &mut out), Ok(96));
        assert_eq!(out[..3], [0x52, 0, 93]);
        let expected = Site {
            temperature: 13,
            ..plain
        };
        assert_eq!(read_record(&out[..96], &[]), Ok(expected));
    }
}

/// A1 below zero, B2 of kind 52, A1 of kind 52, A1 at 20 °C, each with its line in the listing and on a page.
fn mixed() -> (Vec<u8>, String, String) {
    let b2 = a1_with(&["01 0002 4232", "0F 0004 00C800F0"]);
    let lines = "id maxS minN maxN nutN region acidEx nutEx verdict
A1 595 205 866 249 2 368 451 over
B2 735 205 1021 249 0 0 0 within
A1 735 205 1021 249 2 221 451 over
A1 939 205 1248 249 2 7 451 over
";
    let page = "id          maxS    minN    maxN    nutNre acidEx  nutExverdict \n\
        A1           595     205     866     249 2    368    451   over \n\
        B2           735     205    1021     249 0      0      0 within \n\
        A1           735     205    1021     249 2    221    451   over \n\
        A1           939     205    1248     249 2      7    451   over \n";
    let file = [a1_at(0), b2, a1(), a1_at(25)].concat();
    (file, lines.to_string(), page.to_string())
}

#[test]
fn files_may_mix_both_kinds() {
    let (file, lines, page) = mixed();
    let mut out = [0; 400];
    let length = forest::list(&file, &[], &mut out).unwrap();
    assert_eq!(out[..length], *lines.as_bytes());
    let length = forest::report(&file, &[], &mut out).unwrap();
    assert_eq!(out[..length], *lines.as_bytes());
    let length = forest::pages(&file, &[], &mut out).unwrap();
    assert_eq!(out[..length], *page.as_bytes());
    let short = forest::list(&file, &[], &mut out[..lines.len() - 1]).unwrap_err();
    assert_eq!(short.to_string(), "refused 11 at 0");
}

#[test]
fn the_sampler_takes_both_kinds() {
    let month = |rain, sulphate, nitrate| Month {
        rain,
        sulphate: Reading::Measured(sulphate),
        nitrate: Reading::Measured(nitrate),
        ammonium: Reading::Measured(0.0),
    };
    // 800,000 µg of sulphur and 980,000 of nitrogen: the pair 500, 700.
    let mut months = [month(0, 0.0, 0.0); 12];
    months[3] = month(800, 1.0, 1.0);
    months[8] = month(180, 0.0, 1.0);
    for own in [
        a1_site_at(0),
        a1_site_at(25),
        read_record(&a1(), &[]).unwrap(),
    ] {
        let site = Site {
            sulphur: 1,
            nitrogen: 2,
            ..own
        };
        let sampled = sample(&site, &[], &months).unwrap();
        assert_eq!((sampled.sulphur, sampled.nitrogen), (500, 700));
        assert_eq!(sampled.judgement, judge(&own, &[]).unwrap());
    }
    let bad = Site {
        temperature: 26,
        ..a1_site_at(0)
    };
    months[0].sulphate = Reading::Missing;
    assert_eq!(
        sample(&bad, &[], &months).unwrap_err().to_string(),
        "refused 8 at 0"
    );
}
