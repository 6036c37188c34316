//! Species lists, good and bad.

use crate::random::Random;

/// The numbers that a list may have.
const FIRST: u16 = 256;
const LAST: u16 = 1023;
/// The bytes of an entry.
pub const ENTRY: usize = 10;

/// An input and a list to lend with it: mostly the one that the input was made for, else one that lacks species, or a bad one.
pub fn with<T>(random: &mut Random, make: impl FnOnce(&mut Random, &[u8]) -> T) -> (T, Vec<u8>) {
    let mut list = good(random);
    let input = make(random, &list);
    match random.below(16) {
        0 => lack(random, &mut list),
        1 => list.clear(),
        2 | 3 => spoil(random, &mut list),
        _ => {}
    }
    (input, list)
}

/// A list that passes: empty, short, longer, or of all numbers.
pub fn good(random: &mut Random) -> Vec<u8> {
    let most = match random.below(32) {
        0 => return all(random),
        1..=8 => return Vec::new(),
        9..=12 => 1,
        13..=30 => 12,
        _ => 120,
    };
    let count = random.between(1, most);
    let mut numbers: Vec<u16> = (0..count).map(|_| number(random)).collect();
    numbers.sort_unstable();
    numbers.dedup();
    numbers
        .into_iter()
        .flat_map(|number| entry(random, number))
        .collect()
}

/// All 768 numbers.
pub fn all(random: &mut Random) -> Vec<u8> {
    (FIRST..=LAST)
        .flat_map(|number| entry(random, number))
        .collect()
}

/// A number in the list's range, often at an end, or with the low byte of a species of the table.
fn number(random: &mut Random) -> u16 {
    match random.below(8) {
        0 => FIRST,
        1 => LAST,
        2 => FIRST + random.below(3) as u16,
        3 => LAST - random.below(3) as u16,
        4 => 256 * random.between(1, 3) as u16 + random.below(9) as u16,
        _ => random.between(FIRST.into(), LAST.into()) as u16,
    }
}

fn entry(random: &mut Random, number: u16) -> [u8; ENTRY] {
    let mut entry = [0; ENTRY];
    set_number(&mut entry, 0, number);
    let greatest = random.one_in(16);
    for place in 1..5 {
        let content = match random.below(8) {
            _ if greatest => 65535,
            0 => random.pick(&[0, 1, 65534]),
            1 => 65535,
            2..=4 => random.between(0, 15_000) as u16,
            _ => random.word() as u16,
        };
        entry[2 * place..2 * place + 2].copy_from_slice(&content.to_be_bytes());
    }
    entry
}

/// The numbers of the whole entries.
pub fn numbers(list: &[u8]) -> impl Iterator<Item = u16> + '_ {
    list.chunks_exact(ENTRY)
        .map(|entry| u16::from_be_bytes([entry[0], entry[1]]))
}

fn set_number(list: &mut [u8], index: usize, number: u16) {
    list[ENTRY * index..][..2].copy_from_slice(&number.to_be_bytes());
}

/// Takes an entry out, or puts one in where there is room for its number.
fn lack(random: &mut Random, list: &mut Vec<u8>) {
    let count = list.len() / ENTRY;
    if count == 0 {
        let number = number(random);
        list.extend(entry(random, number));
    } else {
        let index = match random.below(4) {
            0 => 0,
            1 => count - 1,
            _ => random.below(count),
        };
        list.drain(ENTRY * index..ENTRY * (index + 1));
    }
}

/// One or two faults.
fn spoil(random: &mut Random, list: &mut Vec<u8>) {
    for _ in 0..random.pick(&[1, 1, 1, 2]) {
        spoil_once(random, list);
    }
}

fn spoil_once(random: &mut Random, list: &mut Vec<u8>) {
    let way = random.below(8);
    // A rest of an entry, or an entry cut short.
    if way < 2 {
        let rest = random.between(1, 9) as usize;
        let whole = list.len() / ENTRY * ENTRY;
        list.truncate(whole - if way == 0 { ENTRY.min(whole) } else { 0 });
        let number = number(random);
        list.extend(&entry(random, number)[..rest]);
        return;
    }
    // Places for an order fault: from the second entry on.
    let least = if way < 5 { 1 } else { 0 };
    while list.len() / ENTRY <= least {
        let number = number(random);
        list.extend(entry(random, number));
    }
    let last = list.len() / ENTRY - 1;
    let at = match random.below(4) {
        0 => least,
        1 => last,
        _ => random.between(least as i64, last as i64) as usize,
    };
    let before = numbers(list).nth(at.saturating_sub(1)).expect("an entry");
    let room = i64::from(before.saturating_sub(FIRST));
    let number = match way {
        2 => before,
        3 | 4 => before - random.between(room.min(1), room.min(300)) as u16,
        5 | 6 => random.pick(&[0, 1, 8, 9, 200, 255, 255]),
        _ => random.pick(&[1024, 1024, 1025, 0x0401, 0x8000, 65535]),
    };
    set_number(list, at, number);
}
