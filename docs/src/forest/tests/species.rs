//! The species of document 02, E6: lists, records and site values of kind 54, and the refusals 15 and 16.

mod common;

use common::{
    a1, a1_as, bytes, number_and_offset, outer, refused, site_refused, year_of_a1, A1_FIELDS, MILD,
};
use forest::{
    check, check_list, judge, level, list, loads, pages, read_record, report, rewrite, sample,
    terms, write_record, Entry, Found, Kind, Loads, Refusal, Site, Verdict,
};

/// An entry of a list: the number, then Ca, Mg, K and N.
fn listed(number: u16, contents: [u16; 4]) -> Vec<u8> {
    let [ca, mg, k, n] = contents;
    [number, ca, mg, k, n].map(u16::to_be_bytes).concat()
}

/// Three species: the first and the last that a list can have, and one whose low byte is that of spruce.
fn three() -> Vec<u8> {
    [
        listed(256, [5389, 1980, 1660, 7782]),
        listed(513, [10000, 2000, 3000, 12000]),
        listed(1023, [65535, 65535, 65535, 65535]),
    ]
    .concat()
}

/// A list of these numbers.
fn of_numbers(numbers: impl IntoIterator<Item = u16>) -> Vec<u8> {
    let entry = |number: u16| listed(number, [1000, 200, 30, number]);
    numbers.into_iter().flat_map(entry).collect()
}

/// A1 in kind 54 at 8 °C, with another field 07.
fn a1_with_stand(field: &str) -> Vec<u8> {
    a1_as(0x54, &[field, MILD])
}

/// A1 in kind 54, its stand of one species.
fn a1_of(species: u16) -> Vec<u8> {
    a1_with_stand(&format!("07 0005 {species:04X}6407D0"))
}

#[test]
fn good_lists() {
    assert_eq!(check_list(&[]), Ok(()));
    assert_eq!(check_list(&three()), Ok(()));
    assert_eq!(check_list(&of_numbers([256])), Ok(()));
    assert_eq!(check_list(&of_numbers([1023])), Ok(()));
    let all = of_numbers(256..=1023);
    assert_eq!(all.len(), 7680);
    assert_eq!(check_list(&all), Ok(()));
    // Contents have no range.
    assert_eq!(check_list(&listed(300, [0; 4])), Ok(()));
    assert_eq!(check_list(&listed(300, [65535; 4])), Ok(()));
}

#[test]
fn a_broken_entry() {
    for rest in 1..10 {
        let broken = |list: Vec<u8>| number_and_offset(check_list(&list[..list.len() - 10 + rest]));
        assert_eq!(broken(of_numbers([256])), (15, 0));
        assert_eq!(broken(of_numbers([256, 257])), (15, 10));
        assert_eq!(broken(of_numbers(256..=1023)), (15, 7670));
        // Whatever its number.
        assert_eq!(broken(of_numbers([1023, 9])), (15, 10));
        assert_eq!(
            broken([of_numbers(256..=1023), vec![0; 10]].concat()),
            (15, 7680)
        );
    }
}

#[test]
fn an_order_fault() {
    let refused = |numbers: &[u16]| number_and_offset(check_list(&of_numbers(numbers.to_vec())));
    assert_eq!(refused(&[256, 256]), (15, 10));
    assert_eq!(refused(&[1023, 1023]), (15, 10));
    assert_eq!(refused(&[300, 299]), (15, 10));
    assert_eq!(refused(&[256, 300, 300, 400]), (15, 20));
    assert_eq!(refused(&[256, 300, 299, 400]), (15, 20));
    assert_eq!(refused(&[256, 300, 400, 400]), (15, 30));
    assert_eq!(refused(&[256, 300, 400, 256]), (15, 30));
    // By the number and not by its high or its low byte.
    assert_eq!(refused(&[0x0200, 0x01FF]), (15, 10));
    assert_eq!(check_list(&of_numbers([0x01FF, 0x0200, 0x0300])), Ok(()));
    // In a list of all 768 numbers, at its last entry.
    let mut all = of_numbers(256..=1023);
    all[7671] = 0xFE;
    assert_eq!(number_and_offset(check_list(&all)), (15, 7670));
}

#[test]
fn a_number_outside() {
    for number in (0..=255).chain(1024..=1100).chain([0x4000, 0xFF00, 0xFFFF]) {
        let refused =
            |numbers: &[u16]| number_and_offset(check_list(&of_numbers(numbers.to_vec())));
        assert_eq!(refused(&[number]), (15, 0));
        assert_eq!(refused(&[number, 256]), (15, 0));
        assert_eq!(refused(&[256, number, 1023]), (15, 10));
        assert_eq!(refused(&[256, 1023, number]), (15, 20));
    }
}

#[test]
fn the_first_fault_of_a_list_is_given() {
    let refused = |numbers: &[u16]| number_and_offset(check_list(&of_numbers(numbers.to_vec())));
    assert_eq!(refused(&[300, 300, 255]), (15, 10));
    assert_eq!(refused(&[300, 255, 255]), (15, 10));
    assert_eq!(refused(&[1024, 300, 300]), (15, 0));
    // 300 rises above 255, but the entry before it is refused.
    assert_eq!(refused(&[255, 300]), (15, 0));
    let broken = [of_numbers([300, 300]), vec![1]].concat();
    assert_eq!(number_and_offset(check_list(&broken)), (15, 10));
}

#[test]
fn a_bad_list_comes_before_all_else() {
    let bad = of_numbers([256, 255]);
    // Ahead of 1 to 10, and of 16.
    for file in [
        vec![],
        bytes("54 00"),
        bytes("51 0000"),
        outer(0x54, &["01"]),
        outer(0x54, &[]),
        a1_with_stand("07 0004 006407D0"),
        a1_of(9),
        a1_with_stand("07 000A 00013207D0 00013207D0"),
        a1_with_stand("07 0005 00016307D0"),
        a1_of(256),
        a1_of(600),
        a1(),
        a1().repeat(2),
    ] {
        assert_eq!(refused(&file, &bad), (15, 10));
    }
    let site = read_record(&a1_of(256), &three()).unwrap();
    assert_eq!(site_refused(&site, &bad), (15, 10));
    assert_eq!(site_refused(&Site::default(), &bad), (15, 10));
    let plain = read_record(&a1(), &[]).unwrap();
    assert_eq!(site_refused(&plain, &bad), (15, 10));
    // And of 11.
    let short = |answer| assert_eq!(number_and_offset(answer), (15, 10));
    short(list(&a1(), &bad, &mut []));
    short(pages(&a1(), &bad, &mut []));
    short(rewrite(&a1(), &bad, &mut []));
    short(write_record(&plain, &bad, &mut []));
    // The report's line has 17 bytes.
    let mut out = [0xEE; 18];
    assert_eq!(
        number_and_offset(report(&[], &bad, &mut out[..16])),
        (11, 0)
    );
    assert_eq!(report(&[], &bad, &mut out), Ok(17));
    assert_eq!(out, *b"refused 15 at 10\n\xEE");
}

#[test]
fn a_good_list_changes_nothing_at_kinds_52_and_53() {
    let mild = outer(0x53, &[&A1_FIELDS[..], &["10 0001 0D"]].concat());
    for record in [a1(), mild] {
        let (mut with, mut without) = ([0; 200], [0; 200]);
        let length = list(&record, &three(), &mut with);
        assert_eq!(length, list(&record, &[], &mut without));
        assert_eq!(with, without);
    }
    // A species above 8 is 8 there, whatever the list holds.
    for species in 9..=255 {
        let stand = format!("07 0004 {species:02X}6407D0");
        for (tag, more) in [(0x52, &[][..]), (0x53, &["10 0001 0D"])] {
            let fields = [&A1_FIELDS[..6], &[&stand], &A1_FIELDS[7..], more].concat();
            assert_eq!(refused(&outer(tag, &fields), &three()), (8, 30));
            assert_eq!(refused(&outer(tag, &fields), &[]), (8, 30));
        }
    }
    let plain = read_record(&a1(), &[]).unwrap();
    for kind in [Kind::Tag52, Kind::Tag53] {
        for species in [9, 255, 256, 513, 1023, 1024] {
            let mut site = Site { kind, ..plain };
            site.stand[0].species = species;
            assert_eq!(site_refused(&site, &three()), (8, 0));
        }
    }
}

#[test]
fn a_record_of_kind_54_is_read_value_by_value() {
    // A1 has 78 bytes, and 5 more: of a species, and of field 10.
    let record = a1_of(513);
    assert_eq!(record.len(), 83);
    let mut expected = Site {
        kind: Kind::Tag54,
        ..read_record(&a1(), &[]).unwrap()
    };
    expected.stand[0].species = 513;
    assert_eq!(expected.stand[0].share, 100);
    assert_eq!(expected.stand[0].growth, 2000);
    assert_eq!(read_record(&record, &three()), Ok(expected));
}

#[test]
fn species_0_to_8_mean_what_they_meant() {
    let lists = [vec![], three(), of_numbers(256..=1023)];
    for species in 0..=8 {
        let mut plain = read_record(&a1(), &[]).unwrap();
        plain.stand[0].species = species;
        for lent in &lists {
            let site = read_record(&a1_of(species), lent).unwrap();
            assert_eq!(site.stand[0].species, species);
            assert_eq!(terms(&site, lent), terms(&plain, &[]));
            assert_eq!(judge(&site, lent), judge(&plain, &[]));
        }
    }
}

#[test]
fn other_numbers_are_8() {
    let all = of_numbers(256..=1023);
    for species in (9..=255).chain(1024..=1100).chain([0x0900, 0x8000, 0xFFFF]) {
        assert_eq!(refused(&a1_of(species), &all), (8, 30));
        assert_eq!(refused(&a1_of(species), &[]), (8, 30));
        let mut site = read_record(&a1_of(0), &[]).unwrap();
        site.stand[0].species = species;
        assert_eq!(site_refused(&site, &all), (8, 0));
    }
}

#[test]
fn every_species_is_found_in_the_list() {
    // Of a pure stand yielding 20000 Nu is a fifth of N, down, and the demand a fifth of Ca + Mg + K, up.
    let demand = (1000 + 200 + 30) / 5;
    let uptake = |species: u16, lent: &[u8]| {
        let mut site = read_record(&a1_of(0), &[]).unwrap();
        site.base_deposition = 5000;
        site.stand[0].species = species;
        site.stand[0].growth = 20000;
        terms(&site, lent)
            .map(|terms| (terms.nitrogen_uptake, terms.base_uptake))
            .map_err(|Refusal { rule, offset }| (rule as u8, offset))
    };
    let all = of_numbers(256..=1023);
    let even = of_numbers((256..=1022).step_by(2));
    for species in 256..=1023 {
        let found = Ok((i64::from(species) / 5, demand));
        assert_eq!(uptake(species, &all), found);
        assert_eq!(uptake(species, &of_numbers([species])), found);
        let absent = Err((16, 0));
        assert_eq!(
            uptake(species, &even),
            if species % 2 == 0 { found } else { absent }
        );
        assert_eq!(uptake(species, &[]), absent);
        let others = of_numbers((256..=1023).filter(|&number| number != species));
        assert_eq!(uptake(species, &others), absent);
    }
}

#[test]
fn lists_of_every_length() {
    let stand_of = |species| {
        let mut site = read_record(&a1_of(0), &[]).unwrap();
        site.stand[0].species = species;
        site
    };
    for length in 0..=40 {
        let numbers = || (0..length).map(|index| 300 + 3 * index);
        let lent = of_numbers(numbers());
        for species in 296..=425 {
            let passes = numbers().any(|number| number == species);
            let site = stand_of(species);
            assert_eq!(check(&site, &lent).is_ok(), passes, "{species} in {length}");
        }
    }
}

#[test]
fn a1_of_a_listed_species() {
    let lent = three();
    // Species 256 has the contents of pine.
    let like_pine = read_record(&a1_of(256), &lent).unwrap();
    let plain = read_record(&a1(), &[]).unwrap();
    assert_eq!(judge(&like_pine, &lent), judge(&plain, &[]));

    // 200,000 × 12000 / 10,000,000 = 240; 200,000 × 15000 / 10,000,000 = 300; B + w − Q/10 = 380; 1500 × 100 / 1000.
    let site = read_record(&a1_of(513), &lent).unwrap();
    let terms = terms(&site, &lent).unwrap();
    assert_eq!((terms.weathering, terms.available), (125, 100));
    assert_eq!((terms.nitrogen_uptake, terms.base_uptake), (240, 300));
    assert_eq!(terms.aluminium_limit, 150);
    // al(631) is 150, al(632) 151, and hydrogen 126.
    let found = Found {
        level: 631,
        compared: 11,
    };
    assert_eq!(level(&site, &lent), Ok(found));
    assert_eq!(terms.acid_leaching, 126 + 150);
    // 300 + 125 − 300 + 276; 401,000 / 900 is 445.6.
    let expected = Loads {
        max_s: 401,
        min_n: 290,
        max_n: 735,
        nut_n: 334,
    };
    assert_eq!(loads(&site, &lent), Ok(expected));
    // v = 500,000 + 900 × 410 − 401,000 = 468,000, and 1900 × 468,000 / 1,810,000 is 491.3; 700 − 334.
    let over = Verdict::Over {
        region: 2,
        acid: 492,
        nutrient: 366,
    };
    assert_eq!(judge(&site, &lent).unwrap().verdict, over);
    // The same number with other contents is another site.
    let other = listed(513, [5389, 1980, 1660, 7782]);
    assert_eq!(judge(&site, &other), judge(&plain, &[]));
}

#[test]
fn the_greatest_contents() {
    // 2,000,000 × 65535 / 10,000,000 = 13,107, and three times that.
    let mut site = read_record(&a1_of(1023), &three()).unwrap();
    site.stand[0].growth = 20000;
    let uptake = |site: &Site| {
        let terms = terms(site, &three()).unwrap();
        (terms.nitrogen_uptake, terms.base_uptake)
    };
    // B + w is 400, less a tenth of 200.
    assert_eq!(uptake(&site), (13_107, 380));
    // Calcareous at 20 °C: W 32,955, w 28,011; 5000 + 28,011 − 1, below the demand of 39,321.
    site.parent_material = 4;
    site.root_depth = 200;
    site.available_share = 85;
    site.temperature = 25;
    site.base_deposition = 5000;
    site.percolation = 1;
    assert_eq!(uptake(&site), (13_107, 33_010));
    // At a yield of 16,789 the demand is 33,008.01, up.
    site.stand[0].growth = 16_789;
    assert_eq!(uptake(&site), (11_002, 33_009));
}

#[test]
fn table_and_list_in_one_stand() {
    // Half each of pine, 2000 kg, and of species 513, 1000 kg. N: 100,000 × 7782 + 50,000 × 12000 = 1,378,200,000.
    // Bases: 100,000 × 9029 + 50,000 × 15000 = 1,652,900,000.
    let record = a1_with_stand("07 000A 00003207D0 02013203E8");
    let site = read_record(&record, &three()).unwrap();
    let terms = terms(&site, &three()).unwrap();
    assert_eq!((terms.nitrogen_uptake, terms.base_uptake), (137, 166));
    let record = a1_with_stand("07 000A 00003D0013 0201270023");
    let site = read_record(&record, &three()).unwrap();
    assert_eq!(site.stand[0].growth, 19);
    assert_eq!(site.stand[1].growth, 35);
    // The sums are divided once. N: 1159 × 7782 + 1365 × 12000 = 9,019,338 + 16,380,000, each alone down to 0 and 1.
    // Bases: 1159 × 9029 + 1365 × 15000 = 10,464,611 + 20,475,000, each alone up to 2 and 3.
    let terms = forest::terms(&site, &three()).unwrap();
    assert_eq!((terms.nitrogen_uptake, terms.base_uptake), (2, 4));
}

#[test]
fn a_species_that_the_list_lacks() {
    let lent = three();
    for species in [257, 512, 514, 1022] {
        assert_eq!(refused(&a1_of(species), &lent), (16, 30));
    }
    for species in [256, 513, 1023] {
        assert_eq!(refused(&a1_of(species), &[]), (16, 30));
    }
    // Any of the entries.
    for stand in [
        "07 0014 0000190000 0101190000 0201190000 03FF190000",
        "07 0014 0000190000 0100190000 0200190000 03FF190000",
        "07 0014 0000190000 0100190000 0201190000 03FE190000",
        "07 000A 0101320000 0102320000",
    ] {
        assert_eq!(refused(&a1_with_stand(stand), &lent), (16, 30));
    }
    let held = a1_with_stand("07 0014 0000190000 0100190000 0201190000 03FF190000");
    assert!(read_record(&held, &lent).is_ok());
    // In a second record: 83 bytes before it.
    let file = [a1_of(256), a1_of(257)].concat();
    assert_eq!(
        number_and_offset(list(&file, &lent, &mut [0; 200])),
        (16, 83 + 30)
    );
    // An entry past the count is no part of the stand.
    let mut site = read_record(&a1_of(256), &lent).unwrap();
    site.stand[1].species = 257;
    assert_eq!(check(&site, &lent), Ok(()));
}

#[test]
fn sixteen_comes_after_10_and_before_field_08() {
    let lent = three();
    // Species 257 is not in the list; 7, 8, 9 and 10 of its own field come first.
    assert_eq!(
        refused(&a1_with_stand("07 0006 01016407D000"), &lent),
        (7, 30)
    );
    assert_eq!(
        refused(&a1_with_stand("07 0005 01016507D0"), &lent),
        (8, 30)
    );
    assert_eq!(
        refused(&a1_with_stand("07 000A 01013207D0 04003207D0"), &lent),
        (8, 30)
    );
    assert_eq!(
        refused(&a1_with_stand("07 000A 01013207D0 01013207D0"), &lent),
        (9, 30)
    );
    assert_eq!(
        refused(&a1_with_stand("07 000A 01013207D0 01003207D0"), &lent),
        (9, 30)
    );
    assert_eq!(
        refused(&a1_with_stand("07 0005 01016307D0"), &lent),
        (10, 30)
    );
    // A field before it.
    let mut early = a1_of(257);
    early[20] = 201;
    assert_eq!(refused(&early, &lent), (8, 17));
    // What comes after: field 08 out of range, of another length, cut, and another tag; bytes after field 10.
    let later = |fields: &[&str]| {
        let stand = "07 0005 01016407D0";
        refused(
            &outer(0x54, &[&A1_FIELDS[..6], &[stand], fields].concat()),
            &lent,
        )
    };
    for fields in [
        &["08 0002 01F5"][..],
        &["08 0001 32"],
        &["08"],
        &["08 0003 0032"],
        &["09 0001 50"],
        &[],
    ] {
        assert_eq!(later(fields), (16, 30));
    }
    let mut long = a1_of(257);
    long.push(0);
    long[2] += 1;
    assert_eq!(refused(&long, &lent), (16, 30));
    // And what comes before the field: the outer field is looked at as a whole.
    assert_eq!(refused(&a1_of(257)[..82], &lent), (2, 0));
}

#[test]
fn sixteen_in_a_site_value() {
    let lent = three();
    let mut site = read_record(&a1_of(256), &lent).unwrap();
    assert_eq!(check(&site, &lent), Ok(()));
    site.stand[0].species = 257;
    site.leachate_nitrogen = 0;
    site.temperature = 26;
    assert_eq!(site_refused(&site, &lent), (16, 0));
    site.stand[0].share = 99;
    assert_eq!(site_refused(&site, &lent), (10, 0));
    site.percolation = 0;
    assert_eq!(site_refused(&site, &lent), (8, 0));
    site.entries = 5;
    site.percolation = 200;
    assert_eq!(site_refused(&site, &lent), (7, 0));
}

#[test]
fn stands_by_the_length_of_their_entries() {
    // Four bytes for an entry in kinds 52 and 53, five in kind 54. A stand of no entries is a reserve's.
    for length in 1..=30 {
        let stand = format!("07 {length:04X} {}", "00".repeat(length));
        let record = a1_with_stand(&stand);
        let expected = if [5, 10, 15, 20].contains(&length) {
            8
        } else {
            7
        };
        assert_eq!(refused(&record, &[]), (expected, 30));
        let fields = [&A1_FIELDS[..6], &[&stand], &A1_FIELDS[7..], &["10 0001 0D"]].concat();
        let expected = if [4, 8, 12, 16].contains(&length) {
            8
        } else {
            7
        };
        assert_eq!(refused(&outer(0x53, &fields), &[]), (expected, 30));
    }
}

#[test]
fn field_10_of_kind_54() {
    let ending = |fields: &[&str]| {
        let stand = "07 0005 00006407D0";
        outer(
            0x54,
            &[&A1_FIELDS[..6], &[stand], &A1_FIELDS[7..], fields].concat(),
        )
    };
    // One byte more than A1 before it.
    assert_eq!(refused(&ending(&[]), &[]), (6, 79));
    assert_eq!(refused(&ending(&["10"]), &[]), (5, 79));
    assert_eq!(refused(&ending(&["11 0001 0D"]), &[]), (6, 79));
    assert_eq!(refused(&ending(&["10 0002 0D0D"]), &[]), (7, 79));
    assert_eq!(refused(&ending(&["10 0001 1A"]), &[]), (8, 79));
    assert_eq!(refused(&ending(&["10 0001 0D", "00"]), &[]), (6, 83));
    assert_eq!(
        refused(&ending(&["10 0001 0D", "11 0001 00"]), &[]),
        (6, 83)
    );
}

#[test]
fn weathering_of_kind_54_is_that_of_kind_53() {
    for temperature in 0..=25 {
        let plain = Site {
            kind: Kind::Tag53,
            temperature,
            ..read_record(&a1(), &[]).unwrap()
        };
        let site = Site {
            kind: Kind::Tag54,
            ..plain
        };
        assert_eq!(terms(&site, &[]), terms(&plain, &[]));
        assert_eq!(judge(&site, &three()), judge(&plain, &[]));
    }
}

#[test]
fn the_longest_record() {
    let stand = [8, 256, 513, 1023].map(|species| Entry {
        species,
        share: 25,
        growth: 20000,
    });
    let full = Site {
        name: *b"OVERSEAS",
        name_length: 8,
        stand,
        entries: 4,
        temperature: 25,
        ..read_record(&a1_of(0), &[]).unwrap()
    };
    let mut out = [0xEE; 106];
    assert_eq!(write_record(&full, &three(), &mut out), Ok(104));
    assert_eq!(out[..3], [0x54, 0, 101]);
    assert_eq!(
        out[36..59],
        bytes("07 0014 0008194E20 0100194E20 0201194E20 03FF194E20")
    );
    assert_eq!(out[100..104], [0x10, 0, 1, 25]);
    assert_eq!(out[104..], [0xEE; 2]);
    assert_eq!(read_record(&out[..104], &three()), Ok(full));
    let record = out;
    assert_eq!(rewrite(&record[..104], &three(), &mut out), Ok(104));
    assert_eq!(out, record);
    assert_eq!(
        number_and_offset(rewrite(&record[..104], &three(), &mut out[..103])),
        (11, 0)
    );
    assert_eq!(refused(&record[..104], &[]), (16, 36));
}

#[test]
fn files_may_mix_all_kinds() {
    let mild = outer(0x53, &[&A1_FIELDS[..], &["10 0001 00"]].concat());
    let file = [a1_of(513), a1(), mild, a1_of(256), a1_of(8)].concat();
    let lines = "id maxS minN maxN nutN region acidEx nutEx verdict
A1 401 290 735 334 2 492 366 over
A1 735 205 1021 249 2 221 451 over
A1 595 205 866 249 2 368 451 over
A1 735 205 1021 249 2 221 451 over
";
    // Species 8: Nu 199, Bu 286, A 171, h 659, M 131 + 171; v = 464,900, and 1900 × v / 1,810,000 is 488.02.
    let last = "A1 441 249 739 293 2 489 407 over\n";
    let expected = format!("{lines}{last}");
    let mut out = [0; 400];
    let length = list(&file, &three(), &mut out).unwrap();
    assert_eq!(String::from_utf8_lossy(&out[..length]), expected);
    let length = report(&file, &three(), &mut out).unwrap();
    assert_eq!(out[..length], *expected.as_bytes());
    // Without the list it is refused, by number and offset alone.
    let length = report(&file, &[], &mut out).unwrap();
    assert_eq!(out[..length], *b"refused 16 at 30\n");
}

#[test]
fn site_values_of_the_c_interface() {
    let value = bytes(
        "4131000000000000 02 01 0A 41 32 01 00C8 016407D0 00000000 00000000 00000000 01
         0032 50 012C 03E8 0BB8 03E8 0014 01F4 02BC",
    );
    assert_eq!(value.len(), 50);
    let with = |more: &[u8]| Site::from_bytes(&[&value[..], more].concat());
    // Temperature, then the high bytes.
    let mut expected = read_record(&a1_of(513), &three()).unwrap();
    assert_eq!(with(&[13, 2, 0, 0, 0]), Ok(expected));
    expected.stand[0].species = 1;
    expected.stand[1].species = 256;
    expected.stand[2].species = 3 * 256;
    expected.stand[3].species = 255 * 256;
    expected.temperature = 255;
    assert_eq!(with(&[255, 0, 1, 3, 255]), Ok(expected));
    assert_eq!(with(&[13]).unwrap().kind, Kind::Tag53);
    assert_eq!(with(&[13]).unwrap().stand[0].species, 1);
    for more in (2..5).chain([6]).chain(8..60) {
        assert_eq!(number_and_offset(with(&vec![0; more])), (7, 0));
    }
}

#[test]
fn the_sampler_takes_kind_54() {
    let lent = three();
    let own = read_record(&a1_of(513), &lent).unwrap();
    let site = Site {
        sulphur: 1,
        nitrogen: 2,
        ..own
    };
    let sampled = sample(&site, &lent, &year_of_a1()).unwrap();
    assert_eq!((sampled.sulphur, sampled.nitrogen), (500, 700));
    assert_eq!(sampled.judgement, judge(&own, &lent).unwrap());
}
