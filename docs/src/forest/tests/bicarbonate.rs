//! Records and site values of kind 55, which lose bicarbonate: A1 with field 11, at 8 °C. W is 125, w 100, Nu 155, Bu 181, A 328,
//! e 900 and L 40 as in A1, so that B + W − Bu is 244. At level h the bicarbonate is 200 × P / (50 × h), which is 4 × P / h, up.

mod common;

use common::{
    a1, a1_as, bytes, number_and_offset, outer, refused, site_refused, year_of_a1, A1_FIELDS, DRY,
    FOUR_WIDE, LONG_NAME, MILD, NO_STAND, PINE,
};
use forest::{
    aluminium, bicarbonate, check, convert, hydrogen, judge, level, list, loads, pages,
    read_record, report, rewrite, sample, terms, write_record, Entry, Found, Kind, Loads, Month,
    Site, Verdict,
};
use std::io::Write;
use std::process::{Command, Stdio};

/// Fields 0D of a ceiling of 50 tenths and of 45.
const LOW: &str = "0D 0002 0032";
const LOWER: &str = "0D 0002 002D";

/// Field 10 at −5 and 20 °C.
const COLD: &str = "10 0001 00";
const WARM: &str = "10 0001 19";

/// A field 07 of the first species that a list can have.
const LISTED: &str = "07 0005 0100 64 07D0";

/// The targets of a conversion.
const TARGETS: [u8; 3] = [0x52, 0x53, 0x54];

/// A1 has 88 bytes in kind 55: the 83 of kind 54, and field 11.
const LENGTH: usize = 88;
const FIELD_11: usize = 83;

/// A1 in kind 55 with P and with other fields in place of its own, at 8 °C where field 10 is none of them.
fn a1_55(changed: &[&str], p: u16) -> Vec<u8> {
    let is_mild = !changed.iter().any(|field| field[..2] == *"10");
    let gas = format!("11 0002 {p:04X}");
    let more: &[&str] = if is_mild {
        &[PINE, MILD, &gas]
    } else {
        &[PINE, &gas]
    };
    a1_as(0x55, &[changed, more].concat())
}

/// A record of kind 55 in kind 54: without field 11.
fn in_54(record: &[u8]) -> Vec<u8> {
    let fields = &record[3..record.len() - 5];
    [&[0x54, 0, fields.len() as u8], fields].concat()
}

fn site_of(record: &[u8]) -> Site {
    read_record(record, &[]).unwrap()
}

fn a1_site(p: u16) -> Site {
    Site {
        carbon_dioxide: p,
        ..site_of(&a1_55(&[], 0))
    }
}

/// A1 with the ceiling of 50: h is 50, hydrogen 10, al(50) below 1, and M is 10 less 4 × P / 50, up.
fn low_site(p: u16) -> Site {
    Site {
        hydrogen_ceiling: 50,
        ..a1_site(p)
    }
}

/// CLmaxS of a site.
fn max_s(site: &Site) -> i64 {
    loads(site, &[]).unwrap().max_s
}

/// The refusal of a file by the listing, in a buffer with room and in none.
fn file_refused(file: &[u8], lent: &[u8]) -> (u8, usize) {
    let mut out = [0xEE; 400];
    let expected = number_and_offset(list(file, lent, &mut out));
    assert_eq!(number_and_offset(list(file, lent, &mut [])), expected);
    assert_eq!(number_and_offset(pages(file, lent, &mut [])), expected);
    let line = format!("refused {} at {}\n", expected.0, expected.1);
    assert_eq!(report(file, lent, &mut out), Ok(line.len()));
    assert_eq!(out[..line.len()], *line.as_bytes());
    expected
}

#[test]
fn a1_in_kind_55_has_88_bytes() {
    let printed = bytes(
        "55 0055 01 0002 4131 02 0001 01 03 0002 0A41 04 0001 32 05 0001 01 06 0002 00C8
         07 0005 00006407D0 08 0002 0032 09 0001 50 0A 0002 012C 0B 0002 03E8 0C 0002 0BB8
         0D 0002 03E8 0E 0002 0014 0F 0004 01F402BC 10 0001 0D 11 0002 01C2",
    );
    assert_eq!(printed.len(), LENGTH);
    assert_eq!(a1_55(&[], 450), printed);
    let expected = Site {
        kind: Kind::Tag55,
        carbon_dioxide: 450,
        ..site_of(&a1())
    };
    assert_eq!(site_of(&printed), expected);
}

#[test]
fn a_record_is_written_again() {
    for record in [
        a1_55(&[], 0),
        a1_55(&[], 1),
        a1_55(&[], 256),
        a1_55(&[], 5000),
        a1_55(&[NO_STAND, LOW], 5000),
        a1_55(&[FOUR_WIDE, LONG_NAME, WARM], 5000),
    ] {
        let length = record.len();
        let mut out = [0xEE; 120];
        assert_eq!(rewrite(&record, &[], &mut out), Ok(length));
        assert_eq!(out[..length], record);
        assert!(out[length..].iter().all(|&byte| byte == 0xEE));
        let mut again = [0xEE; 120];
        assert_eq!(write_record(&site_of(&record), &[], &mut again), Ok(length));
        assert_eq!(again, out);
        let mut short = vec![0xEE; length - 1];
        let refusal = rewrite(&record, &[], &mut short);
        assert_eq!(number_and_offset(refusal), (11, 0));
        assert!(short.iter().all(|&byte| byte == 0xEE));
    }
}

#[test]
fn the_longest_record() {
    let longest = a1_55(&[FOUR_WIDE, LONG_NAME], 0);
    assert_eq!(longest.len(), 109);
    assert_eq!(longest[104..], bytes("11 0002 0000"));
    // 500 of them, and no more. B + W − Bu is 45, A 30, h 372: CLmaxS 149 as with four species in kind 52.
    let full = longest.repeat(500);
    let mut out = vec![0; 30_000];
    let line = "OAK-WELL 149 557 722 601 3 494 99 over\n";
    assert_eq!(list(&full, &[], &mut out), Ok(51 + 500 * line.len()));
    assert_eq!(out[51..51 + line.len()], *line.as_bytes());
    let more = [&full[..], &[0x55]].concat();
    let refusal = list(&more, &[], &mut out);
    assert_eq!(number_and_offset(refusal), (4, 54_500));
}

#[test]
fn inside_a1_at_several_p() {
    // At h 818 hydrogen is 163 and al(818) 328. CLmaxS is 244 + M, and CLmaxN 205 + 1000 × CLmaxS / 900, down.
    for (p, loss, m, max_s, max_n) in [
        (0, 0, 491, 735, 205 + 816),
        (1, 1, 490, 734, 205 + 815),
        // 816 / 818 and 820 / 818, up.
        (204, 1, 490, 734, 205 + 815),
        (205, 2, 489, 733, 205 + 814),
        // 1636 / 818 is 2, and 1640 / 818 is more.
        (409, 2, 489, 733, 205 + 814),
        (410, 3, 488, 732, 205 + 813),
        // 20,000 / 818 is 24.4.
        (5000, 25, 466, 710, 205 + 788),
    ] {
        let site = a1_site(p);
        let terms = terms(&site, &[]).unwrap();
        assert_eq!((terms.weathering, terms.available), (125, 100));
        assert_eq!((terms.nitrogen_uptake, terms.base_uptake), (155, 181));
        assert_eq!((terms.aluminium_limit, terms.level), (328, 818));
        assert_eq!((hydrogen(&site, 818), aluminium(&site, 818)), (163, 328));
        assert_eq!(bicarbonate(&site, 818), loss);
        assert_eq!(terms.acid_leaching, m);
        let expected = Loads {
            max_s,
            min_n: 205,
            max_n,
            nut_n: 249,
        };
        assert_eq!(loads(&site, &[]), Ok(expected));
        assert_eq!(loads(&site_of(&a1_55(&[], p)), &[]), Ok(expected));
        // The search is that of A1.
        let found = Found {
            level: 818,
            compared: 11,
        };
        assert_eq!(level(&site, &[]), Ok(found));
    }
}

#[test]
fn the_net_by_its_sign() {
    for (p, m) in [
        (0, 10),
        (1, 9),
        // 4 × 112 / 50 is 8.96, 4 × 125 / 50 is 10, and 4 × 126 / 50 is 10.08.
        (112, 1),
        (113, 0),
        (125, 0),
        (126, -1),
        (1250, -90),
        (3162, -243),
    ] {
        let site = low_site(p);
        let terms = terms(&site, &[]).unwrap();
        assert_eq!((terms.level, terms.compared), (50, 1));
        assert_eq!(terms.acid_leaching, m, "{p}");
        assert_eq!(max_s(&site), 244 + m);
    }
}

#[test]
fn the_border_of_21() {
    // 4 × P / 50 is 252.96, 253.04, 254, and 254.08.
    for (p, expected) in [(3162, 1), (3163, 0), (3175, 0)] {
        assert_eq!(max_s(&low_site(p)), expected);
        assert_eq!(max_s(&site_of(&a1_55(&[LOW], p))), expected);
    }
    // CLmaxS would be −1; and with P at its greatest M would be 10 − 400, and CLmaxS −146.
    for p in [3176, 5000] {
        assert_eq!(site_refused(&low_site(p), &[]), (21, 0));
        assert_eq!(refused(&a1_55(&[LOW], p), &[]), (21, FIELD_11));
    }
    // At level 1 no hydrogen leaches, and 4 × P of bicarbonate.
    let first = |p| Site {
        hydrogen_ceiling: 1,
        ..a1_site(p)
    };
    assert_eq!(max_s(&first(60)), 4);
    assert_eq!(max_s(&first(61)), 0);
    assert_eq!(site_refused(&first(62), &[]), (21, 0));
    // The most that can leach: 3000 × 5000 / 50.
    let wet = Site {
        percolation: 3000,
        base_deposition: 5000,
        ..first(5000)
    };
    assert_eq!(bicarbonate(&wet, 1), 300_000);
    assert_eq!(site_refused(&wet, &[]), (21, 0));
}

#[test]
fn the_border_of_21_at_other_sites() {
    for (changed, greatest) in [
        // W is 67, and B + W − Bu 186: 4 × 2450 / 50 is 196.
        (&[LOW, COLD][..], 2450),
        // W is 211, and B + W − Bu 330: 4 × 4250 / 50 is 340.
        (&[LOW, WARM], 4250),
        // Peat: W is 0, and B + W − Bu 119: 4 × 1612 / 50 is 128.96.
        (&[LOW, "02 0001 00"], 1612),
        // Four entries: Bu is 380, and B + W − Bu 45: 4 × 687 / 50 is 54.96.
        (&[LOW, FOUR_WIDE, LONG_NAME], 687),
        // A reserve: B + W is 425, hydrogen 9: 4 × 4882 / 45 is 433.96.
        (&[LOWER, NO_STAND], 4882),
    ] {
        let record = a1_55(changed, greatest);
        assert_eq!(max_s(&site_of(&record)), 0);
        let above = a1_55(changed, greatest + 1);
        assert_eq!(refused(&above, &[]), (21, record.len() - 5));
    }
    // A reserve loses as much, and has more to lose: 425 + 10 − 400.
    let reserve = site_of(&a1_55(&[LOW, NO_STAND], 5000));
    let expected = Loads {
        max_s: 35,
        min_n: 50,
        max_n: 50 + 38,
        nut_n: 50 + 44,
    };
    assert_eq!(loads(&reserve, &[]), Ok(expected));
}

#[test]
fn peat_that_loses_bicarbonate() {
    // M is 10 − 100, and CLmaxS 119 − 90; e is 200: 29,000 / 200, and 40,000 / 200.
    let expected = Loads {
        max_s: 29,
        min_n: 205,
        max_n: 205 + 145,
        nut_n: 205 + 200,
    };
    let peat = site_of(&a1_55(&[LOW, "02 0001 00"], 1250));
    assert_eq!(loads(&peat, &[]), Ok(expected));
}

/// Region and both exceedances of a pair at a site; none where it is within.
fn judged(site: &Site, sulphur: u16, nitrogen: u16) -> Option<(i64, i64, i64)> {
    let site = Site {
        sulphur,
        nitrogen,
        ..*site
    };
    match judge(&site, &[]).unwrap().verdict {
        Verdict::Within => None,
        Verdict::Over {
            region,
            acid,
            nutrient,
        } => Some((region, acid, nutrient)),
    }
}

#[test]
fn pairs_and_borders_below_a_negative_net() {
    // M is −90, CLmaxS 154, CLminN 205, CLnutN 249; D is 1,810,000.
    let judged = |s, n| judged(&low_site(1250), s, n);
    assert_eq!(judged(154, 205), None);
    assert_eq!(judged(154, 0), None);
    assert_eq!(judged(155, 205), Some((4, 1, 0)));
    // n = 1, v = 900, and 1900 × 900 / D is below 1.
    assert_eq!(judged(154, 206), Some((2, 1, 0)));
    // v = 2900, and 900 × v is above D: 1 + 156 − 154.
    assert_eq!(judged(156, 206), Some((3, 3, 0)));
    // n = 1295, v = 1,021,500, and 1000 × v is above 10 × D: 10 + 1,011,500 / 900, up; 1500 − 249.
    assert_eq!(judged(10, 1500), Some((1, 1134, 1251)));
    // n = 495, v = 791,500, and 1900 × v / D is 830.9.
    assert_eq!(judged(500, 700), Some((2, 831, 451)));
    // n = 44: 114,000 + 39,600 is 400 less than 154,000.
    assert_eq!(judged(114, 249), None);
    assert_eq!(judged(115, 249), Some((2, 1, 0)));
    assert_eq!(judged(0, 250), Some((0, 0, 1)));
}

#[test]
fn pairs_at_a_load_of_0() {
    let site = low_site(3175);
    let expected = Loads {
        max_s: 0,
        min_n: 205,
        max_n: 205,
        nut_n: 249,
    };
    assert_eq!(loads(&site, &[]), Ok(expected));
    let judged = |s, n| judged(&site, s, n);
    assert_eq!(judged(0, 0), None);
    assert_eq!(judged(0, 205), None);
    assert_eq!(judged(1, 205), Some((4, 1, 0)));
    // n = 1, v = 900, and 1000 × v is above 0.
    assert_eq!(judged(0, 206), Some((1, 1, 0)));
    // n = 495, v = 945,500; 900 × v is below n × D, and 1000 × v above 500 × D: 500 + 445,500 / 900.
    assert_eq!(judged(500, 700), Some((1, 995, 451)));
}

#[test]
fn field_11_is_due_and_the_last() {
    let ending = |more: &[&str]| {
        let fields = [&A1_FIELDS[..6], &[PINE], &A1_FIELDS[7..], &[MILD], more].concat();
        refused(&outer(0x55, &fields), &[])
    };
    // None, or another in its place.
    assert_eq!(ending(&[]), (6, FIELD_11));
    assert_eq!(ending(&["10 0001 0D"]), (6, FIELD_11));
    assert_eq!(ending(&["12 0002 0000"]), (6, FIELD_11));
    assert_eq!(ending(&["12 FFFF"]), (6, FIELD_11));
    // Cut: under 3 bytes come before the tag.
    for cut in ["11", "11 00", "12", "12 00", "11 0002", "11 0002 00"] {
        assert_eq!(ending(&[cut]), (5, FIELD_11), "{cut}");
    }
    assert_eq!(ending(&["11 0102 0000"]), (5, FIELD_11));
    assert_eq!(ending(&["11 0003 0000"]), (5, FIELD_11));
    // Other lengths.
    for length in [
        "11 0000",
        "11 0001 00",
        "11 0003 000000",
        "11 0004 00000000",
    ] {
        assert_eq!(ending(&[length]), (7, FIELD_11), "{length}");
    }
    // Out of its range.
    for above in [
        "11 0002 1389",
        "11 0002 138A",
        "11 0002 8000",
        "11 0002 FFFF",
    ] {
        assert_eq!(ending(&[above]), (8, FIELD_11), "{above}");
        assert_eq!(ending(&[above, "00"]), (8, FIELD_11));
    }
    // Bytes after it.
    for more in ["00", "11", "12 00", "11 0002 0000", "12 0002 0000"] {
        assert_eq!(ending(&["11 0002 1388", more]), (6, LENGTH), "{more}");
    }
    let longest = "11".repeat(255 - 85);
    assert_eq!(ending(&["11 0002 0000", &longest]), (6, LENGTH));
    // Field 10 comes first.
    let hot = a1_55(&["10 0001 1A"], 5001);
    assert_eq!(refused(&hot, &[]), (8, FIELD_11 - 4));
    let fields = [&A1_FIELDS[..6], &[PINE], &A1_FIELDS[7..]].concat();
    let without_10 = outer(0x55, &[&fields[..], &["11 0002 0000"]].concat());
    assert_eq!(refused(&without_10, &[]), (6, FIELD_11 - 4));
    assert_eq!(refused(&outer(0x55, &fields), &[]), (6, FIELD_11 - 4));
}

#[test]
fn field_11_is_one_too_many_in_the_older_kinds() {
    let more = "11 0002 0000";
    let as_52 = outer(0x52, &[&A1_FIELDS[..], &[more]].concat());
    assert_eq!(refused(&as_52, &[]), (6, 78));
    let as_53 = a1_as(0x53, &[MILD, more]);
    assert_eq!(refused(&as_53, &[]), (6, 82));
    let as_54 = a1_as(0x54, &[PINE, MILD, more]);
    assert_eq!(refused(&as_54, &[]), (6, FIELD_11));
}

#[test]
fn entries_have_five_bytes() {
    for length in (0..=40).chain([100]) {
        let stand = format!("07 {length:04X} {}", "00".repeat(length));
        let record = a1_55(&[&stand], 0);
        if length == 0 {
            assert_eq!(max_s(&site_of(&record)), 1225);
            continue;
        }
        // A share of 0.
        let is_stand = length % 5 == 0 && length <= 20;
        let expected = if is_stand { 8 } else { 7 };
        assert_eq!(refused(&record, &[]), (expected, 30), "{length}");
    }
}

#[test]
fn species_of_a_list() {
    // That of pine by its number in the list.
    let lent = bytes("0100 150D 07BC 067C 1E66");
    let listed = a1_55(&[LISTED], 5000);
    let site = read_record(&listed, &lent).unwrap();
    assert_eq!(site.stand[0].species, 256);
    assert_eq!(judge(&site, &lent), judge(&a1_site(5000), &[]));
    let mut out = [0; LENGTH];
    assert_eq!(rewrite(&listed, &lent, &mut out), Ok(LENGTH));
    assert_eq!(out[..], listed);
    assert_eq!(refused(&listed, &[]), (16, 30));
    for species in ["0009", "00FF", "0400"] {
        let stand = format!("07 0005 {species} 64 07D0");
        assert_eq!(refused(&a1_55(&[&stand], 0), &lent), (8, 30));
    }
}

#[test]
fn all_other_faults_of_the_record_come_before_21() {
    let negative = |changed: &[&str]| a1_55(&[changed, &[LOW]].concat(), 5000);
    assert_eq!(refused(&negative(&[]), &[]), (21, FIELD_11));
    // Behind field 07 all stands a byte later than in A1.
    assert_eq!(refused(&negative(&["01 0000"]), &[]), (7, 3));
    assert_eq!(refused(&negative(&["05 0001 06"]), &[]), (8, 21));
    assert_eq!(refused(&negative(&["0E 0002 0000"]), &[]), (8, 67));
    let falling = "07 000A 0001 32 0000 0000 32 0000";
    assert_eq!(refused(&negative(&[falling]), &[]), (9, 30));
    assert_eq!(refused(&negative(&["07 0005 0000 63 07D0"]), &[]), (10, 30));
    assert_eq!(refused(&negative(&[LISTED]), &[]), (16, 30));
    assert_eq!(refused(&negative(&["10 0001 1A"]), &[]), (8, 79));
    assert_eq!(refused(&a1_55(&[LOW], 5001), &[]), (8, FIELD_11));
    // Bytes left over.
    let mut left_over = negative(&[]);
    left_over.extend([0x11, 0, 2, 0, 0]);
    for more in 1..=5 {
        left_over[2] = 85 + more;
        let record = &left_over[..LENGTH + usize::from(more)];
        assert_eq!(refused(record, &[]), (6, LENGTH));
    }
    // The list, and the outer field.
    assert_eq!(refused(&negative(&[]), &[0]), (15, 0));
    assert_eq!(refused(&negative(&[])[..LENGTH - 1], &[]), (2, 0));
}

#[test]
fn twenty_one_comes_before_the_next_record() {
    let negative = a1_55(&[LOW], 3176);
    for next in [
        bytes("52"),
        bytes("52 0100"),
        bytes("51 0000"),
        bytes("55 0000"),
        bytes("55 0001 01"),
        a1(),
        a1_55(&[], 5001),
        a1_55(&[LOW], 5000),
        a1_55(&["01 0000"], 0),
    ] {
        let file = [&negative[..], &next].concat();
        assert_eq!(file_refused(&file, &[]), (21, FIELD_11));
        // Of a single record it comes before 4.
        let mut out = [0xEE; 200];
        let single = rewrite(&file, &[], &mut out);
        assert_eq!(number_and_offset(single), (21, FIELD_11));
        assert_eq!(number_and_offset(read_record(&file, &[])), (21, FIELD_11));
        assert_eq!(out, [0xEE; 200]);
    }
    let two = a1_55(&[LOW], 3175).repeat(2);
    assert_eq!(number_and_offset(read_record(&two, &[])), (4, LENGTH));
}

#[test]
fn twenty_one_comes_after_the_records_before() {
    let negative = a1_55(&[LOW], 3176);
    let good = [a1(), a1_55(&[], 5000), a1_55(&[LOW], 3175)].concat();
    assert_eq!(good.len(), 78 + 88 + 88);
    let file = [&good[..], &negative].concat();
    assert_eq!(file_refused(&file, &[]), (21, 254 + FIELD_11));
    let bad = [&a1_55(&[], 5001)[..], &negative].concat();
    assert_eq!(file_refused(&bad, &[]), (8, FIELD_11));
    // The 500th, ahead of bytes after it; a 501st is not read.
    let most = |last: &[u8]| [&a1().repeat(499)[..], last, &negative].concat();
    let full = most(&negative);
    assert_eq!(file_refused(&full, &[]), (21, 499 * 78 + FIELD_11));
    assert_eq!(file_refused(&most(&a1()), &[]), (4, 500 * 78));
}

#[test]
fn without_carbon_dioxide_it_is_kind_54() {
    let mut count = 0;
    for ceiling in ["0001", "0032", "0332", "0333", "1388"] {
        for material in 0..=4 {
            for temperature in [0, 13, 25] {
                for stand in [NO_STAND, PINE, FOUR_WIDE] {
                    let changed = [
                        &format!("0D 0002 {ceiling}")[..],
                        &format!("02 0001 {material:02X}"),
                        &format!("10 0001 {temperature:02X}"),
                        stand,
                    ];
                    let with_none = a1_55(&changed, 0);
                    let older = in_54(&with_none);
                    let [site, plain] = [&with_none, &older].map(|record| site_of(record));
                    assert_eq!((site.kind, plain.kind), (Kind::Tag55, Kind::Tag54));
                    assert_eq!(terms(&site, &[]), terms(&plain, &[]));
                    assert_eq!(level(&site, &[]), level(&plain, &[]));
                    let mut lines = [[0; 100]; 2];
                    let [ours, theirs] = &mut lines;
                    assert_eq!(list(&with_none, &[], ours), list(&older, &[], theirs));
                    assert_eq!(ours, theirs);
                    for pair in [(0, 0), (500, 700), (200, 240), (65535, 65535), (0, 250)] {
                        let judge = |site: &Site| {
                            let (sulphur, nitrogen) = pair;
                            let site = Site {
                                sulphur,
                                nitrogen,
                                ..*site
                            };
                            judge(&site, &[]).unwrap()
                        };
                        assert_eq!(judge(&site), judge(&plain));
                    }
                    count += 1;
                }
            }
        }
    }
    assert_eq!(count, 225);
}

#[test]
fn the_older_kinds_have_no_carbon_dioxide() {
    // Whatever stands in its place.
    for kind in [Kind::Tag52, Kind::Tag53, Kind::Tag54] {
        let site = Site {
            kind,
            ..low_site(65535)
        };
        assert_eq!(check(&site, &[]), Ok(()));
        assert_eq!(bicarbonate(&site, 1), 0);
        assert_eq!(max_s(&site), 254);
    }
    let site = Site {
        carbon_dioxide: 5001,
        ..a1_site(0)
    };
    assert_eq!(site_refused(&site, &[]), (8, 0));
}

#[test]
fn a_site_value_is_refused_by_21_last() {
    let negative = low_site(3176);
    assert_eq!(site_refused(&negative, &[]), (21, 0));
    assert_eq!(site_refused(&negative, &[0]), (15, 0));
    for (bad, rule) in [
        (
            Site {
                name_length: 0,
                ..negative
            },
            7,
        ),
        (
            Site {
                drainage: 6,
                ..negative
            },
            8,
        ),
        (
            Site {
                temperature: 26,
                ..negative
            },
            8,
        ),
        (
            Site {
                carbon_dioxide: 5001,
                ..negative
            },
            8,
        ),
    ] {
        assert_eq!(site_refused(&bad, &[]), (rule, 0));
    }
    let with_entry = |species, share| {
        let mut site = negative;
        site.stand[0] = Entry {
            species,
            share,
            growth: 2000,
        };
        site
    };
    assert_eq!(site_refused(&with_entry(0, 99), &[]), (10, 0));
    assert_eq!(site_refused(&with_entry(256, 100), &[]), (16, 0));
    // Ahead of a buffer that is too short.
    let short = write_record(&negative, &[], &mut []);
    assert_eq!(number_and_offset(short), (21, 0));
    let short = write_record(&low_site(3175), &[], &mut [0; LENGTH - 1]);
    assert_eq!(number_and_offset(short), (11, 0));
}

#[test]
fn a_conversion_refuses_kind_55() {
    let refused = |file: &[u8], lent: &[u8], target: u8| {
        let mut out = [0xEE; 400];
        let expected = number_and_offset(convert(file, lent, target, &mut out));
        assert_eq!(out, [0xEE; 400]);
        let short = convert(file, lent, target, &mut []);
        assert_eq!(number_and_offset(short), expected);
        expected
    };
    let cool = a1_as(0x54, &[PINE, "10 0001 0C"]);
    for target in TARGETS {
        // Whatever is in it, and wherever it ends.
        for record in [
            a1_55(&[], 0),
            a1_55(&[], 5000),
            a1_55(&[LOW], 5000),
            a1_55(&[], 5001),
            a1_55(&[LISTED], 0),
            bytes("55 0000"),
            bytes("55 0001"),
            bytes("55 FFFF"),
        ] {
            assert_eq!(refused(&record, &[], target), (3, 0));
            // As a later record, and ahead of 17 at the one before.
            let later = [&a1()[..], &record].concat();
            assert_eq!(refused(&later, &[], target), (3, 78));
            let behind_17 = [&cool[..], &record, &a1()].concat();
            assert_eq!(refused(&behind_17, &[], target), (3, 83));
            // After the list, and a fault of the record before.
            assert_eq!(refused(&record, &[0], target), (15, 0));
            let behind_8 = [&a1_as(0x52, &["05 0001 06"])[..], &record].concat();
            assert_eq!(refused(&behind_8, &[], target), (8, 21));
            let behind_500 = [&a1().repeat(500)[..], &record].concat();
            assert_eq!(refused(&behind_500, &[], target), (4, 500 * 78));
        }
        assert_eq!(refused(&bytes("55"), &[], target), (2, 0));
        assert_eq!(refused(&bytes("55 00"), &[], target), (2, 0));
    }
    // As a target.
    for file in [a1(), a1_55(&[], 0), vec![], bytes("51"), cool] {
        for lent in [&[][..], &[0]] {
            assert_eq!(refused(&file, lent, 0x55), (3, 0));
        }
    }
}

#[test]
fn a_year_of_the_sampler() {
    for own in [a1_site(5000), low_site(1250), low_site(3175)] {
        let site = Site {
            sulphur: 0,
            nitrogen: 0,
            ..own
        };
        let sampled = sample(&site, &[], &year_of_a1()).unwrap();
        assert_eq!((sampled.sulphur, sampled.nitrogen), (500, 700));
        assert_eq!(sampled.judgement, judge(&own, &[]).unwrap());
    }
    // The site comes first.
    let wet = Month { rain: 1001, ..DRY };
    let refused = |site: &Site| number_and_offset(sample(site, &[], &[wet; 12]));
    assert_eq!(refused(&low_site(3176)), (21, 0));
    assert_eq!(refused(&low_site(3175)), (8, 0));
}

/// A file of all kinds, and the line of each record in the listing.
fn mixed() -> (Vec<u8>, String) {
    let file = [
        a1_55(&[], 5000),
        a1(),
        a1_55(&[LOW], 1250),
        a1_as(0x54, &[PINE, MILD]),
        a1_55(&[LOW, NO_STAND], 5000),
        a1_as(0x53, &[MILD]),
        a1_55(&[LOW], 3175),
        a1_55(&[], 1),
        a1_55(&["0F 0004 00C800F0"], 5000),
        a1_55(&[], 0),
    ]
    .concat();
    // v is 235,500, and 1900 × v / D is 247.2; 211,500, and 222.02. Of the reserve n is 650, and v 1,050,000: 900 × v is below
    // n × D, and 1000 × v above 500 × D: 500 + 550,000 / 900. Of the pair 200, 240 v is 200,000 + 900 × 35 − 710,000.
    let lines = "id maxS minN maxN nutN region acidEx nutEx verdict
A1 710 205 993 249 2 248 451 over
A1 735 205 1021 249 2 221 451 over
A1 154 205 376 249 2 831 451 over
A1 735 205 1021 249 2 221 451 over
A1 35 50 88 94 1 1112 606 over
A1 735 205 1021 249 2 221 451 over
A1 0 205 205 249 1 995 451 over
A1 734 205 1020 249 2 223 451 over
A1 710 205 993 249 0 0 0 within
A1 735 205 1021 249 2 221 451 over
";
    (file, lines.to_string())
}

#[test]
fn kind_55_among_the_others() {
    let (file, lines) = mixed();
    let mut out = [0; 800];
    let length = list(&file, &[], &mut out).unwrap();
    assert_eq!(String::from_utf8_lossy(&out[..length]), lines);
    let length = report(&file, &[], &mut out).unwrap();
    assert_eq!(String::from_utf8_lossy(&out[..length]), lines);
    let length = pages(&file, &[], &mut out).unwrap();
    let page = String::from_utf8_lossy(&out[..length]);
    let line = "A1           710     205     993     249 2    248    451   over ";
    assert_eq!(page.lines().nth(1), Some(line));
    assert_eq!(page.lines().count(), 11);
}

/// What the program prints for a file.
fn printed(file: &[u8]) -> String {
    let mut program = Command::new(env!("CARGO_BIN_EXE_forest"))
        .stdin(Stdio::piped())
        .stdout(Stdio::piped())
        .spawn()
        .unwrap();
    program.stdin.take().unwrap().write_all(file).unwrap();
    let printed = program.wait_with_output().unwrap().stdout;
    String::from_utf8(printed).unwrap()
}

#[test]
fn the_program_prints_kind_55() {
    let (file, lines) = mixed();
    assert_eq!(printed(&file), lines);
    assert_eq!(printed(&a1_55(&[LOW], 3176)), "refused 21 at 83\n");
}

#[test]
fn site_values_of_the_c_interface() {
    let value = bytes(
        "4131000000000000 02 01 0A 41 32 01 00C8 006407D0 00000000 00000000 00000000 01
         0032 50 012C 03E8 0BB8 03E8 0014 01F4 02BC",
    );
    assert_eq!(value.len(), 50);
    let with = |more: &[u8]| Site::from_bytes(&[&value[..], more].concat());
    // Temperature, the high bytes of the species, and P.
    assert_eq!(with(&[13, 0, 0, 0, 0, 0x13, 0x88]), Ok(a1_site(5000)));
    let mut expected = a1_site(65535);
    expected.temperature = 255;
    for (entry, high) in expected.stand.iter_mut().zip([3, 0, 1, 255]) {
        entry.species = high * 256;
    }
    assert_eq!(with(&[255, 3, 0, 1, 255, 255, 255]), Ok(expected));
    for more in (2..5).chain([6]).chain(8..60) {
        assert_eq!(number_and_offset(with(&vec![0; more])), (7, 0));
    }
}
