//! The worked examples of document 01, and peat by document 02, E2.

mod common;

use common::{a1, a1_with, bytes};
use forest::{
    aluminium, judge, loads, read_record, terms, texture_class, Entry, Kind, Loads, Site, Verdict,
};
use std::io::Write;
use std::process::{Command, Stdio};

const LISTING: &str = "id maxS minN maxN nutN region acidEx nutEx verdict
A1 735 205 1021 249 2 221 451 over
B2 735 205 1021 249 0 0 0 within
";

fn a1_and_b2() -> Vec<u8> {
    [a1(), a1_with(&["01 0002 4232", "0F 0004 00C800F0"])].concat()
}

fn a1_site() -> Site {
    read_record(&a1(), &[]).unwrap()
}

fn judged(sulphur: u16, nitrogen: u16) -> Verdict {
    let site = Site {
        sulphur,
        nitrogen,
        ..a1_site()
    };
    judge(&site, &[]).unwrap().verdict
}

#[test]
fn a1_has_78_bytes() {
    let printed = bytes(
        "52 004B 01 0002 4131 02 0001 01 03 0002 0A41 04 0001 32 05 0001 01 06 0002 00C8
         07 0004 006407D0 08 0002 0032 09 0001 50 0A 0002 012C 0B 0002 03E8 0C 0002 0BB8
         0D 0002 03E8 0E 0002 0014 0F 0004 01F402BC",
    );
    assert_eq!(printed.len(), 78);
    assert_eq!(a1(), printed);
}

#[test]
fn a1_is_read_value_by_value() {
    let mut stand = [Entry::default(); 4];
    stand[0] = Entry {
        species: 0,
        share: 100,
        growth: 2000,
    };
    let expected = Site {
        kind: Kind::Tag52,
        name: *b"A1\0\0\0\0\0\0",
        name_length: 2,
        parent_material: 1,
        clay: 10,
        sand: 65,
        root_depth: 50,
        drainage: 1,
        percolation: 200,
        stand,
        entries: 1,
        immobilisation: 50,
        available_share: 80,
        base_deposition: 300,
        critical_ratio: 1000,
        gibbsite: 3000,
        hydrogen_ceiling: 1000,
        leachate_nitrogen: 20,
        sulphur: 500,
        nitrogen: 700,
        temperature: 13,
        carbon_dioxide: 0,
    };
    assert_eq!(a1_site(), expected);
}

#[test]
fn a1_is_written_again() {
    let mut out = [0xEE; 80];
    assert_eq!(forest::rewrite(&a1(), &[], &mut out), Ok(78));
    assert_eq!(out[..78], a1());
    assert_eq!(out[78..], [0xEE, 0xEE]);
}

#[test]
fn site_value_of_the_c_interface() {
    let mut value = bytes(
        "4131000000000000 02 01 0A 41 32 01 00C8 006407D0 00000000 00000000 00000000 01
         0032 50 012C 03E8 0BB8 03E8 0014 01F4 02BC",
    );
    assert_eq!(Site::from_bytes(&value), Ok(a1_site()));
    value.pop();
    assert_eq!(
        Site::from_bytes(&value).unwrap_err().to_string(),
        "refused 7 at 0"
    );
}

#[test]
fn inside_a1() {
    let site = a1_site();
    let terms = terms(&site, &[]).unwrap();
    assert_eq!(terms.weathering, 125);
    assert_eq!(terms.available, 100);
    assert_eq!(terms.nitrogen_uptake, 155);
    assert_eq!(terms.base_uptake, 181);
    assert_eq!(terms.aluminium_limit, 328);
    assert_eq!(terms.level, 818);
    assert_eq!(terms.acid_leaching, 491);
    assert_eq!(terms.leaching, 40);
    assert_eq!(
        loads(&site, &[]),
        Ok(Loads {
            max_s: 735,
            min_n: 205,
            max_n: 1021,
            nut_n: 249
        })
    );
}

#[test]
fn level_818_is_allowed_and_819_is_not() {
    let site = a1_site();
    assert!(aluminium(&site, 818) <= 328);
    assert_eq!(aluminium(&site, 819), 329);
}

#[test]
fn listing_of_a1_and_b2() {
    let mut out = [0xEE; 200];
    assert_eq!(forest::list(&a1_and_b2(), &[], &mut out), Ok(LISTING.len()));
    assert_eq!(out[..LISTING.len()], *LISTING.as_bytes());
    assert!(out[LISTING.len()..].iter().all(|&byte| byte == 0xEE));
}

#[test]
fn report_is_the_listing_or_the_line_of_the_refusal() {
    let mut out = [0xEE; 200];
    assert_eq!(
        forest::report(&a1_and_b2(), &[], &mut out),
        Ok(LISTING.len())
    );
    assert_eq!(out[..LISTING.len()], *LISTING.as_bytes());

    let mut out = [0xEE; 20];
    assert_eq!(forest::report(&[], &[], &mut out), Ok(15));
    assert_eq!(out, *b"refused 1 at 0\n\xEE\xEE\xEE\xEE\xEE");
}

#[test]
fn the_program_prints_the_report() {
    let run = |file: &[u8]| {
        let mut program = Command::new(env!("CARGO_BIN_EXE_forest"))
            .stdin(Stdio::piped())
            .stdout(Stdio::piped())
            .spawn()
            .unwrap();
        program.stdin.take().unwrap().write_all(file).unwrap();
        String::from_utf8(program.wait_with_output().unwrap().stdout).unwrap()
    };
    assert_eq!(run(&a1_and_b2()), LISTING);
    assert_eq!(run(&a1_and_b2()[..155]), "refused 2 at 78\n");
}

#[test]
fn texture_of_the_source_soils() {
    assert_eq!(texture_class(10, 65), 1);
    assert_eq!(texture_class(4, 63), 2);
    assert_eq!(texture_class(21, 71), 2);
    assert_eq!(texture_class(10, 64), 2);
}

#[test]
fn texture_at_its_borders() {
    assert_eq!(texture_class(60, 0), 5);
    assert_eq!(texture_class(59, 41), 4);
    assert_eq!(texture_class(35, 0), 4);
    assert_eq!(texture_class(34, 14), 3);
    assert_eq!(texture_class(34, 15), 2);
    assert_eq!(texture_class(17, 65), 1);
    assert_eq!(texture_class(18, 65), 2);
    assert_eq!(texture_class(17, 14), 3);
}

#[test]
fn pairs_and_borders() {
    let acid = |sulphur, nitrogen| match judged(sulphur, nitrogen) {
        Verdict::Within => (0, 0),
        Verdict::Over { region, acid, .. } => (region, acid),
    };
    assert_eq!(acid(735, 205), (0, 0));
    assert_eq!(acid(736, 205), (4, 1));
    assert_eq!(acid(735, 206), (2, 1));
    assert_eq!(acid(1000, 206), (3, 266));
    assert_eq!(acid(10, 1500), (1, 489));
    assert_eq!(acid(500, 700), (2, 221));
}

#[test]
fn nutrient_borders() {
    assert_eq!(judged(0, 249), Verdict::Within);
    let over_by_nutrient_alone = Verdict::Over {
        region: 0,
        acid: 0,
        nutrient: 1,
    };
    assert_eq!(judged(0, 250), over_by_nutrient_alone);
}

#[test]
fn uptake_by_species() {
    // Nu and Bu of a pure stand yielding 20000: a fifth of the contents N, down, and Ca + Mg + K, up.
    let fifths = [
        (1556, 1806),
        (1742, 2098),
        (2071, 2941),
        (2998, 3300),
        (1999, 2857),
        (2427, 1912),
        (1642, 1632),
        (1999, 3902),
        (1999, 2857),
    ];
    for (species, expected) in (0..).zip(fifths) {
        let mut site = a1_site();
        site.base_deposition = 5000;
        site.stand[0].species = species;
        site.stand[0].growth = 20000;
        let terms = terms(&site, &[]).unwrap();
        assert_eq!((terms.nitrogen_uptake, terms.base_uptake), expected);
    }
}

#[test]
fn uptake_divides_the_sum_once() {
    let uptake = |pine, spruce| {
        let mut site = a1_site();
        site.entries = 2;
        for (index, growth) in [pine, spruce].into_iter().enumerate() {
            site.stand[index] = Entry {
                species: index as u16,
                share: 50,
                growth,
            };
        }
        let terms = terms(&site, &[]).unwrap();
        (terms.nitrogen_uptake, terms.base_uptake)
    };
    // N: 6,225,600 + 6,097,000, each alone down to 0. Bases: 7,223,200 + 7,340,200.
    assert_eq!(uptake(16, 14), (1, 2));
    // N: 1,945,500 + 2,177,500. Bases: 2,257,250 + 2,621,500, each alone up to 1.
    assert_eq!(uptake(5, 5), (0, 1));
}

#[test]
fn base_uptake_leaves_a_tenth_of_the_percolation() {
    // B + w is 100.
    for (percolation, expected) in [(200, 80), (201, 79), (1000, 0), (1001, 0), (3000, 0)] {
        let site = Site {
            base_deposition: 0,
            percolation,
            ..a1_site()
        };
        assert_eq!(terms(&site, &[]).unwrap().base_uptake, expected);
    }
}

#[test]
fn weathering_by_parent_material_and_texture() {
    let soils = [(10, 65), (4, 63), (10, 10), (40, 30), (70, 20)];
    let by_parent_material = [
        [0; 5],
        [250, 1250, 1250, 2750, 2750],
        [750, 1750, 1750, 2750, 2750],
        [750, 1750, 1750, 2750, 2750],
        [9750; 5],
    ];
    for (parent_material, row) in (0..).zip(by_parent_material) {
        for ((clay, sand), expected) in soils.into_iter().zip(row) {
            let site = Site {
                parent_material,
                clay,
                sand,
                root_depth: 100,
                ..a1_site()
            };
            assert_eq!(terms(&site, &[]).unwrap().weathering, expected);
        }
    }
}

#[test]
fn denitrification_by_drainage() {
    // CLnutN is 205 plus 40,000 / e, down, for every parent material but organic.
    for parent_material in 1..=4 {
        for (drainage, expected) in (0..).zip([245, 249, 255, 271, 338, 405]) {
            let site = Site {
                parent_material,
                drainage,
                ..a1_site()
            };
            assert_eq!(loads(&site, &[]).unwrap().nut_n, expected);
        }
    }
}

#[test]
fn peat_denitrifies_alike_at_every_drainage() {
    // W 0, Bu 181, A 178, h 668, M 133 + 178, L 40, and e = 200: both quotients are whole.
    let expected = Loads {
        max_s: 430,
        min_n: 205,
        max_n: 205 + 2150,
        nut_n: 205 + 200,
    };
    // At the pair 390, 406 v is 200 and D is 1,040,000.
    let over = Verdict::Over {
        region: 2,
        acid: 1,
        nutrient: 1,
    };
    for drainage in 0..6 {
        let peat = |nitrogen| Site {
            parent_material: 0,
            drainage,
            sulphur: 390,
            nitrogen,
            ..a1_site()
        };
        assert_eq!(loads(&peat(405), &[]), Ok(expected));
        // 390,000 + 200 × 200 is 1000 × CLmaxS, and 200 × 200 is 1000 × L.
        assert_eq!(judge(&peat(405), &[]).unwrap().verdict, Verdict::Within);
        assert_eq!(judge(&peat(406), &[]).unwrap().verdict, over);
    }
}
