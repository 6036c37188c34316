//! Site values, good and bad.

use crate::lists;
use crate::random::Random;
use forest::{terms, Entry, Kind, Site, EIGHT_DEGREES};

/// A number in its range, often at or near an end.
pub(crate) fn ranged(random: &mut Random, low: i64, high: i64) -> i64 {
    match random.below(8) {
        0 => low,
        1 => high,
        2 => (low + random.between(0, 3)).min(high),
        3 => (high - random.between(0, 3)).max(low),
        4 => low + ((high - low) >> random.below(12)),
        _ => random.between(low, high),
    }
}

pub const KINDS: [Kind; 4] = [Kind::Tag52, Kind::Tag53, Kind::Tag54, Kind::Tag55];
/// The kinds that a conversion takes and gives.
pub const TARGETS: [Kind; 3] = [Kind::Tag52, Kind::Tag53, Kind::Tag54];

/// A site of any kind that passes the checks with a list, with a pair of any region. What is no part of it holds anything: name
/// bytes, entries, the temperature of kind 52, and the carbon dioxide of the kinds before 55.
pub fn good(random: &mut Random, list: &[u8]) -> Site {
    let [k52, k53, k54, k55] = KINDS;
    let kind = random.pick(&[k52, k53, k54, k54, k55, k55]);
    let entries = entries(random);
    good_of(random, kind, entries, list)
}

/// How many entries a stand has; that of a reserve has none.
pub(crate) fn entries(random: &mut Random) -> u8 {
    random.between(0, 4) as u8
}

/// As [`good`], of a kind and with a stand of so many entries. What lies past the count of a reserve is often a stand.
pub fn good_of(random: &mut Random, kind: Kind, entries: u8, list: &[u8]) -> Site {
    let lying = match entries {
        0 => self::entries(random),
        _ => entries,
    };
    let name_length = random.between(1, 8) as u8;
    let clay = ranged(random, 0, 100);
    let sand = ranged(random, 0, 100 - clay);
    let mut site = Site {
        kind,
        name: name(random, name_length),
        name_length,
        parent_material: random.below(5) as u8,
        clay: clay as u8,
        sand: sand as u8,
        root_depth: ranged(random, 1, 200) as u8,
        drainage: random.below(6) as u8,
        percolation: ranged(random, 1, 3000) as u16,
        stand: stand(random, kind, lying, list),
        entries,
        immobilisation: ranged(random, 0, 500) as u16,
        available_share: ranged(random, 70, 85) as u8,
        base_deposition: ranged(random, 0, 5000) as u16,
        critical_ratio: ranged(random, 100, 20000) as u16,
        gibbsite: ranged(random, 1, 10000) as u16,
        hydrogen_ceiling: ranged(random, 1, 5000) as u16,
        leachate_nitrogen: ranged(random, 1, 1000) as u16,
        sulphur: 0,
        nitrogen: 0,
        temperature: match kind {
            Kind::Tag52 => random.byte(),
            _ => ranged(random, 0, 25) as u8,
        },
        carbon_dioxide: random.word() as u16,
    };
    if kind == Kind::Tag55 && random.one_in(2) {
        weaken(random, &mut site);
    }
    set_loss(random, &mut site, list);
    set_pair(random, &mut site, list);
    site
}

/// Moves a good site to 8 °C, with carbon dioxide and a pair of any region there.
pub fn make_mild(random: &mut Random, site: &mut Site, list: &[u8]) {
    site.temperature = EIGHT_DEGREES;
    set_loss(random, site, list);
    set_pair(random, site, list);
}

/// Gives a site a low level, at which much bicarbonate leaches, and often little to lose.
fn weaken(random: &mut Random, site: &mut Site) {
    let highest = random.pick(&[10, 60, 200]);
    site.hydrogen_ceiling = ranged(random, 1, highest) as u16;
    if random.one_in(2) {
        site.base_deposition = ranged(random, 0, 300) as u16;
        site.root_depth = ranged(random, 1, 20) as u8;
    }
}

/// Sets the carbon dioxide of a site of kind 55 that is else good so that it stays so, often at the border of a CLmaxS of 0 or of
/// an M of 0. Its bicarbonate is at most a loss where Q × P is at most 50 × h × the loss.
fn set_loss(random: &mut Random, site: &mut Site, list: &[u8]) {
    let Some(most) = most_carbon_dioxide(site, list) else {
        return;
    };
    let [to_no_load, to_no_net] = most;
    let p = match random.below(10) {
        0 => 0,
        1 => 1,
        2 | 3 => to_no_load,
        4 => to_no_load - random.between(0, 3),
        5 => to_no_net,
        6 => to_no_net + random.between(-1, 1),
        7 => 5000,
        _ => random.between(0, to_no_load),
    };
    site.carbon_dioxide = p.clamp(0, to_no_load) as u16;
}

/// The most carbon dioxide at which CLmaxS, and M, of a site of kind 55 that is else good are not below 0.
fn most_carbon_dioxide(site: &Site, list: &[u8]) -> Option<[i64; 2]> {
    if site.kind != Kind::Tag55 {
        return None;
    }
    let without_loss = Site {
        carbon_dioxide: 0,
        ..*site
    };
    let terms = terms(&without_loss, list).expect("a good site");
    let losses = [terms.loads(site).max_s, terms.acid_leaching];
    let most = |loss| 50 * terms.level * loss / i64::from(site.percolation);
    Some(losses.map(|loss| most(loss).min(5000)))
}

/// A site of kind 55 that is refused by 21 alone: often CLmaxS would be −1.
pub fn negative(random: &mut Random, list: &[u8]) -> Site {
    loop {
        let entries = entries(random);
        let mut site = good_of(random, Kind::Tag55, entries, list);
        weaken(random, &mut site);
        match most_carbon_dioxide(&site, list) {
            Some([most, _]) if most < 5000 => {
                let p = match random.below(4) {
                    0 | 1 => most + 1,
                    2 => 5000,
                    _ => random.between(most + 1, 5000),
                };
                site.carbon_dioxide = p as u16;
                return site;
            }
            _ => {}
        }
    }
}

/// A site with a stand that does not grow in place of its own.
pub fn without_growth(random: &mut Random, site: &Site, list: &[u8]) -> Site {
    let entries = random.between(1, 4) as u8;
    let stand = stand(random, site.kind, entries, list).map(|entry| Entry { growth: 0, ..entry });
    Site {
        stand,
        entries,
        ..*site
    }
}

fn name(random: &mut Random, length: u8) -> [u8; 8] {
    let mut name = [0; 8].map(|_| if random.one_in(2) { 0 } else { random.byte() });
    for byte in &mut name[..usize::from(length)] {
        *byte = random.pick(b"ABCDEFGHIJKLMNOPQRSTUVWXYZ0123456789-AZ09-");
    }
    name
}

/// Species of the table and, in kind 54, of the list.
fn stand(random: &mut Random, kind: Kind, entries: u8, list: &[u8]) -> [Entry; 4] {
    let mut stand = [Entry::default(); 4].map(|_| Entry {
        species: if kind.has_wide_species() {
            random.word() as u16
        } else {
            random.byte().into()
        },
        share: random.byte(),
        growth: random.word() as u16,
    });
    let listed: Vec<u16> = lists::numbers(list).collect();
    let of_list = if kind.has_wide_species() {
        random.below(listed.len().min(entries.into()) + 1)
    } else {
        0
    };
    let of_table = usize::from(entries) - of_list;
    let species = rising(random, of_table, 9).map(|species| species as u16);
    let species: Vec<u16> = species
        .chain(rising(random, of_list, listed.len()).map(|at| listed[at]))
        .collect();
    let mut share = 100;
    for (index, species) in species.into_iter().enumerate() {
        let after = i64::from(entries) - index as i64 - 1;
        let part = if after == 0 {
            share
        } else {
            ranged(random, 1, share - after)
        };
        stand[index] = Entry {
            species,
            share: part as u8,
            growth: ranged(random, 0, 20000) as u16,
        };
        share -= part;
    }
    stand
}

/// So many of the numbers from 0 to `below` − 1, rising, often the first or the last ones.
fn rising(random: &mut Random, count: usize, below: usize) -> impl Iterator<Item = usize> {
    let (mut least, mut room) = (0, below - count);
    match random.below(8) {
        0 => room = 0,
        1 => least = room as i64,
        _ => {}
    }
    let numbers: Vec<usize> = (0..count)
        .map(|index| {
            let number = random.between(least, (room + index) as i64);
            least = number + 1;
            number as usize
        })
        .collect();
    numbers.into_iter()
}

/// Sets a pair, often at a border between the acid regions or at a load.
fn set_pair(random: &mut Random, site: &mut Site, list: &[u8]) {
    let terms = terms(site, list).expect("a good site");
    let loads = terms.loads(site);
    let e = terms.left;
    let nitrogen = match random.below(8) {
        0 => random.between(0, 65535),
        1 => random.between(0, 2 * loads.max_n),
        2 => random.between(0, loads.nut_n),
        3 => loads.min_n,
        4 => loads.nut_n,
        5 => loads.max_n,
        6 => loads.min_n + random.between(1, 100),
        _ => random.pick(&[0, 65535]),
    };
    let nitrogen = (nitrogen + random.between(-1, 1)).clamp(0, 65535);
    let n = nitrogen - loads.min_n;
    let sulphur = match random.below(8) {
        0 => random.between(0, 65535),
        1 => random.between(0, 2 * loads.max_s),
        2 => random.between(0, loads.max_s),
        3 => loads.max_s,
        // v = 0
        4 => loads.max_s - e * n / 1000,
        // e × v = n × D
        5 => loads.max_s + 1000 * n / e,
        // 1000 × v = S × D
        6 => 1000 * (e * n - 1000 * loads.max_s) / (e * e),
        _ => random.pick(&[0, 65535]),
    };
    site.sulphur = (sulphur + random.between(-1, 1)).clamp(0, 65535) as u16;
    site.nitrogen = nitrogen as u16;
}

/// Takes one value of a site out of its range. Lengths stay as they are, but that a reserve gets a stand where a value of an entry
/// is taken; a site with a bad temperature is of kind 53 or later, and one with too much carbon dioxide of kind 55.
pub fn spoil_value(random: &mut Random, site: &mut Site, list: &[u8]) {
    match random.below(25) {
        0 => {
            let at = random.below(usize::from(site.name_length.clamp(1, 8)));
            site.name[at] = random.pick(b"@[/:,.`az_ \0\x80\xFF");
        }
        1 => site.parent_material = random.pick(&[5, 6, 255]),
        2 => {
            let (clay, sand) = random.pick(&[
                (0, 101),
                (101, 0),
                (60, 41),
                (156, 200),
                (255, 255),
                (200, 56),
            ]);
            (site.clay, site.sand) = (clay, sand);
        }
        3 => site.root_depth = random.pick(&[0, 201, 255]),
        4 => site.drainage = random.pick(&[6, 7, 255]),
        5 => site.percolation = random.pick(&[0, 3001, 65535]),
        6 | 23 => {
            let species = match site.kind {
                Kind::Tag54 | Kind::Tag55 => {
                    random.pick(&[9, 9, 10, 200, 255, 255, 1024, 1024, 1025, 2048, 65535])
                }
                _ => random.pick(&[9, 10, 255]),
            };
            entry(random, site, list).species = species;
        }
        7 => entry(random, site, list).share = random.pick(&[0, 101, 255]),
        8 => entry(random, site, list).growth = random.pick(&[20001, 20002, 65535]),
        9 => site.immobilisation = random.pick(&[501, 502, 65535]),
        10 => site.available_share = random.pick(&[0, 69, 86, 255]),
        11 => site.base_deposition = random.pick(&[5001, 5002, 65535]),
        12 => site.critical_ratio = random.pick(&[0, 99, 20001, 65535]),
        13 => site.gibbsite = random.pick(&[0, 10001, 65535]),
        14 => site.hydrogen_ceiling = random.pick(&[0, 5001, 65535]),
        15 => site.leachate_nitrogen = random.pick(&[0, 1001, 65535]),
        16 => {
            if site.kind == Kind::Tag52 {
                site.kind = Kind::Tag53;
            }
            site.temperature = random.pick(&[26, 27, 128, 251, 255]);
        }
        24 => {
            if site.kind == Kind::Tag52 {
                site.temperature = EIGHT_DEGREES;
            }
            site.kind = Kind::Tag55;
            site.carbon_dioxide = random.pick(&[5001, 5001, 5002, 32768, 65535]);
        }
        17..=19 => spoil_species(random, site, list),
        _ => spoil_shares(random, site, list),
    }
}

fn entry<'a>(random: &mut Random, site: &'a mut Site, list: &[u8]) -> &'a mut Entry {
    if site.entries == 0 {
        site.entries = 1;
        site.stand = stand(random, site.kind, 1, list);
    }
    let at = random.below(usize::from(site.entries.clamp(1, 4)));
    &mut site.stand[at]
}

/// Two neighbouring entries of one species, or in falling order.
fn spoil_species(random: &mut Random, site: &mut Site, list: &[u8]) {
    site.entries = site.entries.clamp(2, 4);
    site.stand = stand(random, site.kind, site.entries, list);
    let at = random.below(usize::from(site.entries) - 1);
    if random.one_in(2) {
        site.stand[at + 1].species = site.stand[at].species;
    } else {
        let species = site.stand[at].species;
        site.stand[at].species = site.stand[at + 1].species;
        site.stand[at + 1].species = species;
    }
    if random.one_in(4) {
        site.stand[at].share ^= 1;
    }
}

/// Shares that add up to nearly 100, or to 100 more than 256.
fn spoil_shares(random: &mut Random, site: &mut Site, list: &[u8]) {
    if random.one_in(4) {
        site.entries = 4;
        site.stand = stand(random, site.kind, 4, list);
        for (entry, share) in site.stand.iter_mut().zip([100, 100, 100, 56]) {
            entry.share = share;
        }
    } else {
        let entry = entry(random, site, list);
        entry.share = entry.share.wrapping_add(random.pick(&[1, 255]));
    }
}

/// A site value as its 50, 51, 55 or 57 bytes, or as another number of bytes: often good with a list, else refused by 21, or
/// broken in one or more ways.
pub fn value(random: &mut Random, list: &[u8]) -> Vec<u8> {
    if random.one_in(64) {
        let length = random.pick(&[50, 51, 55, 57]);
        return random.bytes(length);
    }
    let mut site = if random.one_in(8) {
        negative(random, list)
    } else {
        good(random, list)
    };
    if random.one_in(3) {
        for _ in 0..random.pick(&[1, 1, 1, 2, 4]) {
            match random.below(8) {
                0 => site.name_length = random.pick(&[0, 9, 10, 255]),
                1 => site.entries = random.pick(&[5, 6, 255]),
                _ => spoil_value(random, &mut site, list),
            }
        }
    }
    let mut value = bytes(&site);
    if random.one_in(32) {
        let at = random.below(value.len());
        value[at] = random.byte();
    }
    if random.one_in(64) {
        // Between 50, 51, 55 and 57 the value is then of another kind.
        let length = random.pick(&[
            0, 1, 49, 49, 50, 51, 52, 52, 53, 54, 54, 55, 56, 56, 57, 58, 58, 100,
        ]);
        value.resize(length, random.pick(&[0, 13, 25, 26]));
    }
    value
}

/// The bytes of a site value: 50 of kind 52, 51 of kind 53, 55 of kind 54, 57 of kind 55.
pub fn bytes(site: &Site) -> Vec<u8> {
    let mut value = site.name.to_vec();
    value.extend([
        site.name_length,
        site.parent_material,
        site.clay,
        site.sand,
        site.root_depth,
        site.drainage,
    ]);
    value.extend(site.percolation.to_be_bytes());
    for entry in site.stand {
        value.extend([entry.species as u8, entry.share]);
        value.extend(entry.growth.to_be_bytes());
    }
    value.push(site.entries);
    value.extend(site.immobilisation.to_be_bytes());
    value.push(site.available_share);
    for number in [
        site.base_deposition,
        site.critical_ratio,
        site.gibbsite,
        site.hydrogen_ceiling,
        site.leachate_nitrogen,
        site.sulphur,
        site.nitrogen,
    ] {
        value.extend(number.to_be_bytes());
    }
    if site.kind != Kind::Tag52 {
        value.push(site.temperature);
    }
    if site.kind.has_wide_species() {
        value.extend(site.stand.map(|entry| (entry.species >> 8) as u8));
    }
    if site.kind == Kind::Tag55 {
        value.extend(site.carbon_dioxide.to_be_bytes());
    }
    value
}
