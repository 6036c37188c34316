//! The reserves of document 02, E8: A1 with no stand, in every kind. W, w and L are those of A1; Nu, the base demand and with it
//! Bu are 0.

mod common;

use common::{
    a1, a1_as, a1_with, bytes, number_and_offset, outer, year_of_a1, A1_FIELDS, FOUR, FOUR_WIDE,
    MILD, NO_STAND, PINE,
};
use forest::{
    aluminium, check, convert, judge, level, list, loads, pages, read_record, report, rewrite,
    sample, terms, write_record, Entry, Found, Kind, Loads, Site, Verdict,
};
use std::io::Write;
use std::process::{Command, Stdio};

/// Field 10 at −5 and 20 °C.
const COLD: &str = "10 0001 00";
const WARM: &str = "10 0001 19";

const TAGS: [u8; 3] = [0x52, 0x53, 0x54];

/// A reserve with A1's fields and these in place of some.
fn reserve_as(tag: u8, changed: &[&str]) -> Vec<u8> {
    a1_as(tag, &[&[NO_STAND], changed].concat())
}

/// A1 as a reserve in the kinds 52, 53 and 54.
fn reserves() -> [Vec<u8>; 3] {
    [
        reserve_as(0x52, &[]),
        reserve_as(0x53, &[MILD]),
        reserve_as(0x54, &[MILD]),
    ]
}

fn site_of(record: &[u8]) -> Site {
    read_record(record, &[]).unwrap()
}

/// All entries that a list can have.
fn all_species() -> Vec<u8> {
    (256..=1023_u16)
        .flat_map(|number| [number, 5389, 1980, 1660, 7782].map(u16::to_be_bytes))
        .flatten()
        .collect()
}

/// The refusal of a record by every call that takes one, the conversion too.
fn refused(record: &[u8]) -> (u8, usize) {
    let expected = common::refused(record, &[]);
    let mut out = [0xEE; 200];
    for target in TAGS {
        let answer = convert(record, &[], target, &mut out);
        assert_eq!(number_and_offset(answer), expected);
    }
    assert_eq!(out, [0xEE; 200]);
    expected
}

#[test]
fn a_reserve_has_74_bytes_and_78() {
    let printed = bytes(
        "52 0047 01 0002 4131 02 0001 01 03 0002 0A41 04 0001 32 05 0001 01 06 0002 00C8
         07 0000 08 0002 0032 09 0001 50 0A 0002 012C 0B 0002 03E8 0C 0002 0BB8
         0D 0002 03E8 0E 0002 0014 0F 0004 01F402BC",
    );
    assert_eq!(printed.len(), 74);
    let [as_52, as_53, as_54] = reserves();
    assert_eq!(as_52, printed);
    // Field 10 has four bytes; without entries kind 54 is no longer than 53.
    assert_eq!((as_53.len(), as_54.len()), (78, 78));
    assert_eq!(
        (&as_53[..3], &as_54[..3]),
        (&[0x53, 0, 75][..], &[0x54, 0, 75][..])
    );
    assert_eq!(as_53[3..], as_54[3..]);
}

#[test]
fn a_reserve_is_read_value_by_value_and_written_again() {
    for (record, kind) in reserves()
        .iter()
        .zip([Kind::Tag52, Kind::Tag53, Kind::Tag54])
    {
        let expected = Site {
            kind,
            stand: [Entry::default(); 4],
            entries: 0,
            ..site_of(&a1())
        };
        assert_eq!(site_of(record), expected);
        assert_eq!(check(&expected, &[]), Ok(()));
        let mut out = [0xEE; 80];
        assert_eq!(rewrite(record, &[], &mut out), Ok(record.len()));
        assert_eq!(out[..record.len()], *record);
        assert!(out[record.len()..].iter().all(|&byte| byte == 0xEE));
        let short = rewrite(record, &[], &mut out[..record.len() - 1]);
        assert_eq!(number_and_offset(short), (11, 0));
    }
}

#[test]
fn the_shortest_record() {
    let record = reserve_as(0x52, &["01 0001 2D"]);
    assert_eq!(record.len(), 73);
    let mut out = [0; 73];
    assert_eq!(rewrite(&record, &[], &mut out), Ok(73));
    assert_eq!(out[..], record);
    // 500 of them, and no more.
    let full = record.repeat(500);
    let mut out = vec![0; 20_000];
    assert_eq!(
        list(&full, &[], &mut out),
        Ok(51 + 500 * "- 1225 50 1411 94 0 0 606 over\n".len())
    );
    let more = [&full[..], &[0x52]].concat();
    assert_eq!(number_and_offset(list(&more, &[], &mut out)), (4, 36_500));
}

#[test]
fn inside_a_reserve() {
    for record in reserves() {
        let site = site_of(&record);
        let terms = terms(&site, &[]).unwrap();
        assert_eq!((terms.weathering, terms.available), (125, 100));
        assert_eq!((terms.nitrogen_uptake, terms.base_uptake), (0, 0));
        // 1500 × (300 + 100) / 1000; al(1000) = 200 × 3000 × 10⁹ / 10¹² is just as much.
        assert_eq!(terms.aluminium_limit, 600);
        assert_eq!(aluminium(&site, 1000), 600);
        assert_eq!(aluminium(&site, 1001), 601);
        let found = Found {
            level: 1000,
            compared: 1,
        };
        assert_eq!(level(&site, &[]), Ok(found));
        assert_eq!(terms.acid_leaching, 200 + 600);
        assert_eq!((terms.left, terms.leaching), (900, 40));
        // 300 + 125 + 800; 1,225,000 / 900 is 1361.1, and 40,000 / 900 44.4.
        let expected = Loads {
            max_s: 1225,
            min_n: 50,
            max_n: 50 + 1361,
            nut_n: 50 + 44,
        };
        assert_eq!(loads(&site, &[]), Ok(expected));
    }
}

#[test]
fn the_level_of_a_reserve_is_searched() {
    let found = |ceiling| {
        let site = Site {
            hydrogen_ceiling: ceiling,
            ..site_of(&reserves()[0])
        };
        let Found { level, compared } = level(&site, &[]).unwrap();
        (level, compared)
    };
    assert_eq!(found(999), (999, 1));
    // 1001, 500, 750, 875, 938, 969, 985, 993, 997, 999, 1000.
    assert_eq!(found(1001), (1000, 11));
    // 5000, 2500, 1250, 625, 937, 1093, 1015, 976, 995, 1005, 1000, 1002, 1001.
    assert_eq!(found(5000), (1000, 13));
}

#[test]
fn pairs_and_borders_of_a_reserve() {
    let judged = |sulphur, nitrogen| {
        let site = Site {
            sulphur,
            nitrogen,
            ..site_of(&reserves()[0])
        };
        match judge(&site, &[]).unwrap().verdict {
            Verdict::Within => None,
            Verdict::Over {
                region,
                acid,
                nutrient,
            } => Some((region, acid, nutrient)),
        }
    };
    assert_eq!(judged(1225, 50), None);
    assert_eq!(judged(1226, 50), Some((4, 1, 0)));
    // n = 1, v = 900, and 1900 × 900 / 1,810,000 is below 1.
    assert_eq!(judged(1225, 51), Some((2, 1, 0)));
    // v = 275,900, and 900 × v is above D; 1 + 1500 − 1225.
    assert_eq!(judged(1500, 51), Some((3, 276, 0)));
    // v = 90,000, and 1000 × v is above 10 × D; 10 + 80,000 / 900, up; 1500 − 94.
    assert_eq!(judged(10, 1500), Some((1, 99, 1406)));
    // n = 44, 1,185,000 + 39,600 is 400 less than 1000 × CLmaxS.
    assert_eq!(judged(1185, 94), None);
    assert_eq!(judged(1186, 94), Some((2, 1, 0)));
    assert_eq!(judged(0, 94), None);
    assert_eq!(judged(0, 95), Some((0, 0, 1)));
    // The pairs of A1 and B2: 500,000 + 900 × 650 and 200,000 + 900 × 190 are below 1,225,000.
    assert_eq!(judged(500, 700), Some((0, 0, 606)));
    assert_eq!(judged(200, 240), Some((0, 0, 146)));
}

#[test]
fn a_reserve_at_other_temperatures() {
    let inside = |temperature| {
        let site = site_of(&reserve_as(0x53, &[temperature]));
        assert_eq!(
            judge(&site, &[]),
            judge(
                &Site {
                    kind: Kind::Tag54,
                    ..site
                },
                &[]
            )
        );
        let terms = terms(&site, &[]).unwrap();
        let loads = terms.loads(&site);
        assert_eq!((loads.min_n, loads.nut_n), (50, 94));
        let numbers = (terms.weathering, terms.aluminium_limit, terms.level);
        (numbers, (terms.acid_leaching, loads.max_s, loads.max_n))
    };
    // W 67, w 53; al(959) is 529, al(960) 530, and hydrogen 191. 1,087,000 / 900 is 1207.8.
    assert_eq!(inside(COLD), ((67, 529, 959), (191 + 529, 1087, 50 + 1207)));
    assert_eq!(inside(MILD), ((125, 600, 1000), (800, 1225, 50 + 1361)));
    // W 211, w 168, A above al at the ceiling. 1,311,000 / 900 is 1456.7.
    assert_eq!(inside(WARM), ((211, 702, 1000), (800, 1311, 50 + 1456)));
}

#[test]
fn a_reserve_on_peat() {
    // W 0, A 450; al(909) is 450, al(910) 452, and hydrogen 181; e is 200: 931,000 / 200, and 40,000 / 200.
    let site = site_of(&reserve_as(0x52, &["02 0001 00"]));
    let expected = Loads {
        max_s: 300 + 181 + 450,
        min_n: 50,
        max_n: 50 + 4655,
        nut_n: 50 + 200,
    };
    assert_eq!(loads(&site, &[]), Ok(expected));
}

#[test]
fn little_supply_leaves_no_uptake_below_0() {
    // B + w is 100, below Q / 10. A 150; al(256) is 150, al(257) 152, and hydrogen 768.
    let site = Site {
        base_deposition: 0,
        percolation: 3000,
        ..site_of(&reserves()[0])
    };
    let terms = terms(&site, &[]).unwrap();
    assert_eq!((terms.base_uptake, terms.aluminium_limit), (0, 150));
    assert_eq!((terms.level, terms.acid_leaching), (256, 768 + 150));
    assert_eq!(terms.loads(&site).max_s, 125 + 918);
}

#[test]
fn a_reserve_is_judged_as_a_stand_without_growth() {
    for record in reserves() {
        let reserve = site_of(&record);
        for species in 0..=8 {
            let mut barren = reserve;
            barren.entries = 1;
            barren.stand[0] = Entry {
                species,
                share: 100,
                growth: 0,
            };
            assert_eq!(terms(&barren, &[]), terms(&reserve, &[]));
            assert_eq!(judge(&barren, &[]), judge(&reserve, &[]));
        }
    }
}

#[test]
fn what_lies_past_a_count_of_0_is_no_part_of_a_reserve() {
    for record in reserves() {
        let reserve = site_of(&record);
        let entry = |species, share, growth| Entry {
            species,
            share,
            growth,
        };
        for stand in [
            [
                entry(0, 25, 20000),
                entry(1, 25, 20000),
                entry(2, 25, 20000),
                entry(8, 25, 20000),
            ],
            // None of 8, 9, 10 and 16 is looked at.
            [entry(65535, 255, 65535); 4],
            [entry(3, 100, 2000); 4],
            [entry(300, 1, 0); 4],
        ] {
            let site = Site { stand, ..reserve };
            assert_eq!(check(&site, &[]), Ok(()));
            assert_eq!(terms(&site, &[]), terms(&reserve, &[]));
            assert_eq!(judge(&site, &[]), judge(&reserve, &[]));
            let mut out = [0; 78];
            assert_eq!(write_record(&site, &[], &mut out), Ok(record.len()));
            assert_eq!(out[..record.len()], record);
        }
    }
}

#[test]
fn other_counts_and_lengths_stay_7() {
    for (tag, width) in [(0x52, 4), (0x53, 4), (0x54, 5)] {
        let temperature: &[&str] = if tag == 0x52 { &[] } else { &[MILD] };
        for length in (1..=40).chain([100, 150]) {
            let stand = format!("07 {length:04X} {}", "00".repeat(length));
            let record = a1_as(tag, &[&[&stand[..]], temperature].concat());
            let is_stand = length % width == 0 && length / width <= 4;
            // A share of 0.
            let expected = if is_stand { 8 } else { 7 };
            assert_eq!(refused(&record), (expected, 30), "{tag:X} {length}");
        }
    }
    for record in reserves() {
        for entries in 5..=255 {
            let site = Site {
                entries,
                ..site_of(&record)
            };
            assert_eq!(number_and_offset(check(&site, &[])), (7, 0));
        }
    }
}

#[test]
fn a_name_of_no_bytes_stays_7() {
    for (tag, temperature) in [(0x52, &[][..]), (0x53, &[MILD]), (0x54, &[MILD])] {
        let nameless = reserve_as(tag, &[&["01 0000"], temperature].concat());
        assert_eq!(refused(&nameless), (7, 3));
    }
    for record in reserves() {
        let site = Site {
            name_length: 0,
            ..site_of(&record)
        };
        assert_eq!(number_and_offset(check(&site, &[])), (7, 0));
    }
}

#[test]
fn faults_beside_the_field_without_a_value() {
    // Field 07 stands at 30, 08 at 33.
    let rest = |fields: &[&str]| refused(&outer(0x52, &[&A1_FIELDS[..6], fields].concat()));
    assert_eq!(refused(&reserve_as(0x52, &["06 0002 0000"])), (8, 25));
    assert_eq!(refused(&reserve_as(0x52, &["06 0001 C8"])), (7, 25));
    assert_eq!(refused(&reserve_as(0x52, &["08 0002 01F5"])), (8, 33));
    assert_eq!(refused(&reserve_as(0x52, &["08 0003 000032"])), (7, 33));
    assert_eq!(rest(&["07"]), (5, 30));
    assert_eq!(rest(&["07 00"]), (5, 30));
    assert_eq!(rest(&["07 0001"]), (5, 30));
    assert_eq!(rest(&["07 0100"]), (5, 30));
    assert_eq!(rest(&[NO_STAND]), (6, 33));
    assert_eq!(rest(&[NO_STAND, "08"]), (5, 33));
    assert_eq!(rest(&[NO_STAND, NO_STAND]), (6, 33));
    assert_eq!(rest(&[NO_STAND, "09 0001 50"]), (6, 33));
    // The field is still due.
    assert_eq!(rest(&["08 0002 0032"]), (6, 30));
    for tag in [0x53, 0x54] {
        assert_eq!(refused(&reserve_as(tag, &["10 0001 1A"])), (8, 74));
        assert_eq!(refused(&reserve_as(tag, &[])), (6, 74));
        assert_eq!(refused(&reserve_as(tag, &["06 0002 0BB9", MILD])), (8, 25));
        assert_eq!(refused(&reserve_as(tag, &["08 0002 01F5", MILD])), (8, 33));
    }
}

#[test]
fn any_good_list_goes_with_a_reserve() {
    let all = all_species();
    let mut out = [0; 78];
    for record in reserves() {
        let site = site_of(&record);
        for lent in [&[][..], &all[..10], &all] {
            assert_eq!(read_record(&record, lent), Ok(site));
            assert_eq!(judge(&site, lent), judge(&site, &[]));
            assert_eq!(rewrite(&record, lent, &mut out), Ok(record.len()));
        }
        // A bad one is looked at, though nothing is looked up.
        let bad = &all[..all.len() - 1];
        assert_eq!(number_and_offset(read_record(&record, bad)), (15, 7670));
        assert_eq!(number_and_offset(judge(&site, bad)), (15, 7670));
    }
}

/// Stands of four entries, reserves and stands of one, in all kinds, with the line of each in the listing.
fn mixed() -> (Vec<u8>, String) {
    // N: 25 × (1 × 8710 + 256 × 12137 + 20,000 × 9995) / 10,000,000 is 507.5; bases: 25 × (10,486 + 256 × 9558 +
    // 20,000 × 14,283) / 10,000,000 is 720.3, beside 380: A 30, h 372, M 74 + 30. CLmaxS is 300 + 125 − 380 + 104. n = 143,
    // v = 500,000 + 900 × 143 − 149,000, and 900 × v is above n × D: 143 + 500 − 149.
    let four = "A1 149 557 722 601 3 494 99 over\n";
    let (one, reserve) = (
        "A1 735 205 1021 249 2 221 451 over\n",
        "A1 1225 50 1411 94 0 0 606 over\n",
    );
    let cold = "A1 1087 50 1257 94 0 0 606 over\n";
    let within = "B2 1225 50 1411 94 0 0 0 within\n";
    let header = "id maxS minN maxN nutN region acidEx nutEx verdict\n";
    let [as_52, as_53, as_54] = reserves();
    let file = [
        a1_with(&[FOUR]),
        as_52,
        a1(),
        a1_as(0x54, &[FOUR_WIDE, MILD]),
        as_54,
        reserve_as(0x53, &[COLD]),
        a1_as(0x53, &[FOUR, MILD]),
        as_53,
        reserve_as(0x52, &["01 0002 4232", "0F 0004 04A1005E"]),
        a1(),
    ]
    .concat();
    let lines = [
        header, four, reserve, one, four, reserve, cold, four, reserve, within, one,
    ];
    (file, lines.concat())
}

#[test]
fn reserves_between_stands() {
    let (file, lines) = mixed();
    let mut out = [0; 800];
    let length = list(&file, &[], &mut out).unwrap();
    assert_eq!(String::from_utf8_lossy(&out[..length]), lines);
    let length = report(&file, &[], &mut out).unwrap();
    assert_eq!(String::from_utf8_lossy(&out[..length]), lines);
    let length = pages(&file, &[], &mut out).unwrap();
    let page = String::from_utf8_lossy(&out[..length]);
    let words = |text: &str| -> Vec<Vec<String>> {
        let line = |line: &str| line.split_whitespace().map(str::to_string).collect();
        text.lines().skip(1).map(line).collect()
    };
    assert_eq!(words(&page), words(&lines));
    let line = "A1          1225      50    1411      94 0      0    606   over ";
    assert_eq!(page.lines().nth(2), Some(line));
}

#[test]
fn the_program_prints_reserves() {
    let (file, lines) = mixed();
    let mut program = Command::new(env!("CARGO_BIN_EXE_forest"))
        .stdin(Stdio::piped())
        .stdout(Stdio::piped())
        .spawn()
        .unwrap();
    program.stdin.take().unwrap().write_all(&file).unwrap();
    let printed = program.wait_with_output().unwrap().stdout;
    assert_eq!(String::from_utf8(printed).unwrap(), lines);
}

/// A file of reserves or stands moved, in a buffer with room.
fn moved(file: &[u8], target: u8) -> Vec<u8> {
    let mut out = vec![0xEE; 1000];
    let length = convert(file, &[], target, &mut out).expect("a file that converts");
    assert!(out.split_off(length).iter().all(|&byte| byte == 0xEE));
    out
}

#[test]
fn a_reserve_moves_from_every_kind_to_every_kind() {
    let kinds = reserves();
    for from in &kinds {
        for (to, target) in kinds.iter().zip(TAGS) {
            assert_eq!(moved(from, target), *to);
            let mut out = vec![0xEE; to.len() - 1];
            let short = convert(from, &[], target, &mut out);
            assert_eq!(number_and_offset(short), (11, 0));
            assert!(out.iter().all(|&byte| byte == 0xEE));
        }
    }
    // Between stands, each of which keeps its own entries.
    let as_52 = [a1_with(&[FOUR]), kinds[0].clone(), a1()].concat();
    let as_54 = [
        a1_as(0x54, &[FOUR_WIDE, MILD]),
        kinds[2].clone(),
        a1_as(0x54, &[PINE, MILD]),
    ]
    .concat();
    assert_eq!(moved(&as_52, 0x54), as_54);
    assert_eq!(moved(&as_54, 0x52), as_52);
}

#[test]
fn seventeen_at_a_reserve_is_that_of_field_10() {
    for tag in [0x53, 0x54] {
        for byte in (0..=25).filter(|&byte| byte != 13) {
            let field = format!("10 0001 {byte:02X}");
            let record = reserve_as(tag, &[&field]);
            for target in [0x53, 0x54] {
                assert_eq!(moved(&record, target), reserve_as(target, &[&field]));
            }
            // It has the last four bytes.
            let into_52 = |file: &[u8]| number_and_offset(convert(file, &[], 0x52, &mut [0; 200]));
            assert_eq!(into_52(&record), (17, 74));
            let file = [a1_with(&[FOUR]), record].concat();
            assert_eq!(into_52(&file), (17, 90 + 74));
        }
    }
}

#[test]
fn a_year_of_the_sampler_at_a_reserve() {
    for record in reserves() {
        let own = site_of(&record);
        let site = Site {
            sulphur: 1,
            nitrogen: 2,
            ..own
        };
        assert_eq!(judge(&site, &[]).unwrap().verdict, Verdict::Within);
        let sampled = sample(&site, &[], &year_of_a1()).unwrap();
        assert_eq!((sampled.sulphur, sampled.nitrogen), (500, 700));
        assert_eq!(sampled.judgement, judge(&own, &[]).unwrap());
        let over = Verdict::Over {
            region: 0,
            acid: 0,
            nutrient: 606,
        };
        assert_eq!(sampled.judgement.verdict, over);
    }
}

#[test]
fn site_values_of_the_c_interface() {
    let value = |stand: &str| {
        let hex = format!(
            "4131000000000000 02 01 0A 41 32 01 00C8 {stand} 00
             0032 50 012C 03E8 0BB8 03E8 0014 01F4 02BC"
        );
        bytes(&hex)
    };
    let (empty, full) = (
        value("00000000 00000000 00000000 00000000"),
        value("006407D0 FFFFFFFF 01010101 63630000"),
    );
    assert_eq!((empty.len(), full.len()), (50, 50));
    let [as_52, as_53, as_54] = reserves().map(|record| site_of(&record));
    for value in [empty, full] {
        for (more, expected) in [
            (&[][..], as_52),
            (&[13], as_53),
            (&[13, 0, 0, 0, 0], as_54),
            (&[13, 1, 2, 3, 255], as_54),
        ] {
            let site = Site::from_bytes(&[&value[..], more].concat()).unwrap();
            assert_eq!((site.kind, site.entries), (expected.kind, 0));
            assert_eq!(check(&site, &[]), Ok(()));
            assert_eq!(judge(&site, &[]), judge(&expected, &[]));
        }
    }
}
