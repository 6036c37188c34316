//! The verdict against demand 3's balances, each u, i and h tried one by one.

use forest::{
    aluminium, bicarbonate, check, hydrogen, judge, terms, Entry, Kind, Refusal, Rule, Site, Terms,
    Verdict,
};

const KINDS: [Kind; 4] = [Kind::Tag52, Kind::Tag53, Kind::Tag54, Kind::Tag55];

fn allowed(site: &Site, terms: &Terms, h: i64) -> bool {
    h <= i64::from(site.hydrogen_ceiling) && aluminium(site, h) <= terms.aluminium_limit
}

/// The net leaching at a level, which may be below 0.
fn net(site: &Site, h: i64) -> i64 {
    hydrogen(site, h) + aluminium(site, h) - bicarbonate(site, h)
}

/// The terms of a site that may have too little left for a load. Carbon dioxide counts in none but M.
fn terms_of(site: &Site, list: &[u8]) -> Terms {
    let without_loss = Site {
        carbon_dioxide: 0,
        ..*site
    };
    terms(&without_loss, list).unwrap()
}

/// Whether uptake, immobilisation and a hydrogen level, from 1 on, can be chosen so that all balances hold.
fn closes(site: &Site, terms: &Terms) -> bool {
    let (s, n) = (i64::from(site.sulphur), i64::from(site.nitrogen));
    let supply = terms.base_supply(site);
    let e = terms.left;
    for u in 0..=terms.nitrogen_uptake {
        for i in 0..=i64::from(site.immobilisation) {
            if u + i > n || e * (n - u - i) > 1000 * terms.leaching {
                continue;
            }
            for h in 1..=i64::from(site.hydrogen_ceiling) {
                if allowed(site, terms, h)
                    && 1000 * s + e * (n - u - i) <= 1000 * (supply + net(site, h))
                {
                    return true;
                }
            }
        }
    }
    false
}

/// splitmix64.
struct Random(u64);

impl Random {
    fn number(&mut self, low: u16, high: u16) -> u16 {
        self.0 = self.0.wrapping_add(0x9E37_79B9_7F4A_7C15);
        let mut z = self.0;
        z = (z ^ (z >> 30)).wrapping_mul(0xBF58_476D_1CE4_E5B9);
        z = (z ^ (z >> 27)).wrapping_mul(0x94D0_49BB_1331_11EB);
        let span = u64::from(high - low) + 1;
        low + ((z ^ (z >> 31)) % span) as u16
    }
}

/// A site of few and small fluxes, so that all choices can be tried, and a species list: of kind 54 or 55 with both species in
/// it. One in three is a reserve, and its two entries are no part of it. In kind 55 the loss of bicarbonate is often more than
/// the supply, and often less.
fn small_site(random: &mut Random) -> (Site, Vec<u8>) {
    let kind = KINDS[usize::from(random.number(0, 3))];
    let is_wide = matches!(kind, Kind::Tag54 | Kind::Tag55);
    let ((low, middle, high), most_growth) = match is_wide {
        true => ((256, 600, 1023), 40),
        false => ((0, 4, 8), 150),
    };
    let mut stand = [Entry::default(); 4];
    let share = random.number(1, 99);
    stand[0] = Entry {
        species: random.number(low, middle),
        share: share as u8,
        growth: random.number(0, most_growth),
    };
    stand[1] = Entry {
        species: random.number(middle + 1, high),
        share: (100 - share) as u8,
        growth: random.number(0, most_growth),
    };
    let mut list = Vec::new();
    for entry in &stand[..2] {
        if is_wide {
            list.extend(entry.species.to_be_bytes());
            list.extend(
                [(); 4]
                    .map(|()| random.number(0, 65535).to_be_bytes())
                    .as_flattened(),
            );
        }
    }
    let site = Site {
        kind,
        name: *b"SMALL\0\0\0",
        name_length: 5,
        parent_material: random.number(0, 4) as u8,
        clay: random.number(0, 50) as u8,
        sand: random.number(0, 50) as u8,
        root_depth: random.number(1, 4) as u8,
        drainage: random.number(0, 5) as u8,
        percolation: random.number(1, 600),
        stand,
        entries: [0, 2, 2][usize::from(random.number(0, 2))],
        immobilisation: random.number(0, 8),
        available_share: random.number(70, 85) as u8,
        base_deposition: random.number(0, 30),
        critical_ratio: random.number(500, 20000),
        gibbsite: random.number(1, 10000),
        hydrogen_ceiling: random.number(1, 700),
        leachate_nitrogen: random.number(1, 5),
        sulphur: 0,
        nitrogen: 0,
        temperature: random.number(0, 25) as u8,
        carbon_dioxide: match random.number(0, 3) {
            0 => random.number(0, 3),
            1 => random.number(0, 500),
            _ => random.number(0, 5000),
        },
    };
    (site, list)
}

#[test]
fn within_exactly_where_the_balances_close() {
    let mut random = Random(1);
    // By whether the balances close, the site is a reserve, and it is aluminium-bound; then by kind.
    let mut counts = [[[[0; 4]; 2]; 2]; 2];
    // Of kind 55, by whether they close; then by the sign of M.
    let mut signs = [[0; 3]; 2];
    for _ in 0..60_000 {
        let (mut site, list) = small_site(&mut random);
        let Ok(terms) = terms(&site, &list) else {
            continue;
        };
        let loads = terms.loads(&site);
        let is_reserve = site.entries == 0;
        if is_reserve {
            assert_eq!((terms.nitrogen_uptake, terms.base_uptake), (0, 0));
        }
        for _ in 0..4 {
            // Pairs on both sides of the loads.
            site.sulphur = random.number(0, loads.max_s as u16 + 3);
            site.nitrogen = random.number(0, loads.nut_n as u16 + 3);
            let closes = closes(&site, &terms);
            let is_within = judge(&site, &list).unwrap().verdict == Verdict::Within;
            assert_eq!(is_within, closes, "{site:?}");
            let is_aluminium_bound = terms.level < site.hydrogen_ceiling.into();
            let [a, b, c] = [closes, is_reserve, is_aluminium_bound].map(usize::from);
            counts[a][b][c][site.kind as usize - 0x52] += 1;
            if site.kind == Kind::Tag55 {
                signs[a][(1 + terms.acid_leaching.signum()) as usize] += 1;
            }
        }
    }
    // Hydrogen-bound and aluminium-bound sites of each kind, reserves or not, all often on either side.
    let all = counts.as_flattened().as_flattened().as_flattened();
    assert!(all.iter().min() > Some(&1000), "{counts:?}");
    let all = signs.as_flattened();
    assert!(all.iter().min() > Some(&200), "{signs:?}");
}

#[test]
fn no_pair_closes_exactly_where_the_load_would_be_negative() {
    let mut random = Random(3);
    // By whether the site is refused, it is a reserve, and it is aluminium-bound.
    let mut counts = [[[0; 2]; 2]; 2];
    for _ in 0..20_000 {
        let (mut site, list) = small_site(&mut random);
        let terms = terms_of(&site, &list);
        let max_s = terms.base_supply(&site) + net(&site, terms.level);
        let is_refused = max_s < 0;
        let refusal = Refusal {
            rule: Rule::NegativeLoad,
            offset: 0,
        };
        let expected = if is_refused { Err(refusal) } else { Ok(()) };
        assert_eq!(check(&site, &list), expected, "{site:?}");
        let offered = terms.nitrogen_uptake as u16 + site.immobilisation;
        let mut pairs = (0..2).flat_map(|s| (0..offered + 2).map(move |n| (s, n)));
        let any_closes = pairs.any(|pair| {
            (site.sulphur, site.nitrogen) = pair;
            closes(&site, &terms)
        });
        assert_eq!(any_closes, !is_refused, "{site:?}");
        if site.kind == Kind::Tag55 {
            let is_aluminium_bound = terms.level < site.hydrogen_ceiling.into();
            let is_reserve = site.entries == 0;
            let [a, b, c] = [is_refused, is_reserve, is_aluminium_bound].map(usize::from);
            counts[a][b][c] += 1;
        }
    }
    let all = counts.as_flattened().as_flattened();
    assert!(all.iter().min() > Some(&100), "{counts:?}");
}

#[test]
fn the_net_never_falls_as_the_level_rises() {
    let mut random = Random(4);
    let mut count = 0;
    for _ in 0..2000 {
        let (site, _) = small_site(&mut random);
        for h in 1..5000 {
            assert!(net(&site, h) <= net(&site, h + 1), "{h} at {site:?}");
        }
        count += u64::from(net(&site, 1) < 0);
    }
    assert!(count > 100, "{count}");
}

#[test]
fn no_level_above_the_greatest_is_allowed() {
    let mut random = Random(2);
    for _ in 0..20_000 {
        let (site, list) = small_site(&mut random);
        let terms = terms_of(&site, &list);
        let greatest = (1..=5000).rfind(|&h| allowed(&site, &terms, h));
        assert_eq!(greatest, Some(terms.level), "{site:?}");
    }
}
