//! The hydrogen search of document 02, E4.

mod common;

use common::a1;
use forest::{aluminium, level, read_record, search, terms, Found, Refusal, Site};

fn a1_with_ceiling(ceiling: u16) -> Site {
    Site {
        hydrogen_ceiling: ceiling,
        ..read_record(&a1(), &[]).unwrap()
    }
}

/// The levels that the search compares at a site, in order, and what it finds.
fn compared(site: &Site) -> (Vec<i64>, Found) {
    let limit = terms(site, &[]).unwrap().aluminium_limit;
    let mut levels = Vec::new();
    let found = search(i64::from(site.hydrogen_ceiling), |h| {
        levels.push(h);
        aluminium(site, h) <= limit
    });
    assert_eq!(level(site, &[]), Ok(found));
    assert_eq!(found.compared, levels.len() as i64);
    (levels, found)
}

#[test]
fn a1_compares_11_levels() {
    let (levels, found) = compared(&a1_with_ceiling(1000));
    assert_eq!(
        levels,
        [1000, 500, 750, 875, 812, 843, 827, 819, 815, 817, 818]
    );
    assert_eq!(found.level, 818);
}

#[test]
fn a_ceiling_that_is_allowed_is_compared_alone() {
    assert_eq!(compared(&a1_with_ceiling(1)).0, [1]);
    assert_eq!(compared(&a1_with_ceiling(818)).0, [818]);
}

#[test]
fn a_ceiling_that_just_is_not_allowed() {
    let (levels, found) = compared(&a1_with_ceiling(819));
    assert_eq!(
        levels,
        [819, 409, 614, 716, 767, 793, 806, 812, 815, 817, 818]
    );
    assert_eq!(found.level, 818);
}

#[test]
fn a1_with_the_greatest_ceiling_compares_14_levels() {
    let (levels, found) = compared(&a1_with_ceiling(5000));
    assert_eq!(
        levels,
        [5000, 2500, 1250, 625, 937, 781, 859, 820, 800, 810, 815, 817, 818, 819]
    );
    assert_eq!(found.level, 818);
}

/// Whatever the greatest allowed level below a ceiling is, it is found, with 14 levels at most, the ceiling once and 0 never.
#[test]
fn every_level_below_every_ceiling() {
    let mut most = 0;
    for ceiling in 1..=5000 {
        for greatest in (0..=ceiling).step_by(7).chain([ceiling - 1, ceiling]) {
            let mut seen = Vec::new();
            let found = search(ceiling, |h| {
                seen.push(h);
                h <= greatest
            });
            assert_eq!(found.level, greatest);
            assert_eq!(found.compared, seen.len() as i64);
            assert_eq!(seen[0], ceiling);
            assert!(seen[1..].iter().all(|h| (1..ceiling).contains(h)));
            // With level 1 allowed, as it is at every site, one level is enough only at the ceiling.
            if greatest > 0 {
                assert_eq!(found.compared == 1, greatest == ceiling);
            }
            most = most.max(found.compared);
        }
    }
    assert_eq!(most, 14);
}

#[test]
fn a_bad_site_is_refused_at_0() {
    let refused =
        |site: Site| level(&site, &[]).map_err(|Refusal { rule, offset }| (rule as u8, offset));
    assert_eq!(refused(a1_with_ceiling(0)), Err((8, 0)));
    assert_eq!(refused(a1_with_ceiling(5001)), Err((8, 0)));
    let five_entries = Site {
        entries: 5,
        ..a1_with_ceiling(0)
    };
    assert_eq!(refused(five_entries), Err((7, 0)));
}
