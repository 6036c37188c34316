//! How often each kind of species occurred, and each refusal by it or by the list.

use crate::kinds::{fault, stand_in, KIND_54};
use crate::lent::Lists;
use compare::lists::ENTRY;
use compare::sites::KINDS;
use forest::{terms, Entry, Kind, Site};

/// What is lent with a list: a file to three calls, a record to one, a site value to four, a site value with months to one, and
/// a file with a target to one.
#[derive(Clone, Copy)]
pub enum With {
    File,
    Record,
    Value,
    Months,
    Target,
}

/// By what is lent with a list.
pub type ByInput<T = u64> = [T; 5];

const WITH: ByInput<&str> = ["file", "record", "value", "months", "convert"];

/// 16, by the entries of the stand that the list lacks, and by where they would stand in it.
const LACKING: [&str; 10] = [
    "16: entry 1 alone",
    "16: entry 2 alone",
    "16: entry 3 alone",
    "16: entry 4 alone",
    "16: several entries",
    "16: empty list",
    "16: below the first",
    "16: between two",
    "16: above the last",
    "16: list of 767",
];

/// 8 by a species alone.
const OUTSIDE: [&str; 14] = [
    "8: kind 52, 9",
    "8: kind 52, above 9",
    "8: kind 53, 9",
    "8: kind 53, above 9",
    "8: kind 54, 9",
    "8: kind 54, 10 to 254",
    "8: kind 54, 255",
    "8: kind 54, 1024",
    "8: kind 54, above 1024",
    "8: kind 55, 9",
    "8: kind 55, 10 to 254",
    "8: kind 55, 255",
    "8: kind 55, 1024",
    "8: kind 55, above 1024",
];
/// Which of them a conversion never reads.
const OUTSIDE_55: std::ops::Range<usize> = 9..OUTSIDE.len();

/// The rules, by what is lent with the list, that a list at fault must come ahead of, that a species which the list lacks
/// must come ahead of, and that must come ahead of it in the same stand. 0 is no other fault.
const BEHIND_15: ByInput<&[u64]> = [
    &[0, 1, 2, 3, 4, 5, 6, 7, 8, 9, 10, 21],
    &[0, 1, 2, 3, 4, 5, 6, 7, 8, 9, 10, 21],
    &[0, 7, 8, 9, 10, 21],
    &[0, 7, 8, 9, 10, 12, 13, 14, 21],
    &[0, 1, 2, 3, 4, 5, 6, 7, 8, 9, 10, 17],
];
const BEHIND_16: ByInput<&[u64]> = [
    &[0, 2, 5, 6, 7, 8, 21],
    &[0, 4, 5, 6, 7, 8, 21],
    &[0, 8, 21],
    &[0, 7, 8, 12, 13, 14, 21],
    &[0, 2, 5, 6, 7, 8, 17],
];
const AHEAD_OF_16: ByInput<&[u64]> = [&[8, 9, 10]; WITH.len()];

/// Judged stands of kinds 54 and 55 by their species and contents.
const JUDGED: [&str; 21] = [
    "species 256",
    "species 1023",
    "low byte 0 to 8",
    "first of its list",
    "last of its list",
    "between these",
    "alone in its list",
    "of a list of 768",
    "table and list",
    "four of the list",
    "table, with a list",
    "Ca 65535",
    "Mg 65535",
    "K 65535",
    "N 65535",
    "no content",
    "Nu above the table's",
    "Bu above the table's",
    "Nu 13107",
    "not by its neighbour",
    "kind 55, of a list",
];

#[derive(Default)]
pub struct Species {
    lists: Lists,
    lacking: [ByInput; LACKING.len()],
    outside: [ByInput; OUTSIDE.len()],
    /// By rule.
    behind_15: [ByInput; 22],
    behind_16: [ByInput; 22],
    ahead_of_16: [ByInput; 22],
    /// 15 and 16 ahead of 11.
    short: [ByInput; 2],
    judged: [u64; JUDGED.len()],
}

impl Species {
    /// A list with what it was lent with, the result in a buffer with room, and that with a list of all species.
    pub fn lent(
        &mut self,
        with: With,
        input: &[u8],
        list: &[u8],
        result: u64,
        with_all: impl FnOnce() -> u64,
    ) {
        let column = with as usize;
        let (rule, offset) = (result >> 32, result as u32 as usize);
        self.lists.count(column, list, rule == 0);
        match rule {
            15 => self.behind_15[(with_all() >> 32) as usize][column] += 1,
            16 => {
                self.behind_16[(with_all() >> 32) as usize][column] += 1;
                for name in lacking(&stand(with, input, offset), list) {
                    self.lacking[row(&LACKING, name)][column] += 1;
                }
            }
            8..=10 => {
                let (kind, stand) = kind_and_stand(with, input, offset);
                let lacks = |entry: &Entry| is_listed(entry.species) && !has(list, entry.species);
                if kind.is_some_and(Kind::has_wide_species) && stand.iter().any(lacks) {
                    self.ahead_of_16[rule as usize][column] += 1;
                }
                if let (8, Some(kind)) = (rule, kind) {
                    self.outside(kind, &stand, column);
                }
            }
            _ => {}
        }
    }

    fn outside(&mut self, kind: Kind, stand: &[Entry], column: usize) {
        let in_range = |entry: &Entry| (1..=100).contains(&entry.share) && entry.growth <= 20000;
        if !stand.iter().all(in_range) {
            return;
        }
        let is_outside =
            |species: u16| !(species <= 8 || kind.has_wide_species() && is_listed(species));
        for entry in stand.iter().filter(|entry| is_outside(entry.species)) {
            let name = match (kind, entry.species) {
                (Kind::Tag52, 9) => "8: kind 52, 9",
                (Kind::Tag52, _) => "8: kind 52, above 9",
                (Kind::Tag53, 9) => "8: kind 53, 9",
                (Kind::Tag53, _) => "8: kind 53, above 9",
                (Kind::Tag54, 9) => "8: kind 54, 9",
                (Kind::Tag54, 255) => "8: kind 54, 255",
                (Kind::Tag54, 1024) => "8: kind 54, 1024",
                (Kind::Tag54, 1025..) => "8: kind 54, above 1024",
                (Kind::Tag54, _) => "8: kind 54, 10 to 254",
                (Kind::Tag55, 9) => "8: kind 55, 9",
                (Kind::Tag55, 255) => "8: kind 55, 255",
                (Kind::Tag55, 1024) => "8: kind 55, 1024",
                (Kind::Tag55, 1025..) => "8: kind 55, above 1024",
                (Kind::Tag55, _) => "8: kind 55, 10 to 254",
            };
            self.outside[row(&OUTSIDE, name)][column] += 1;
        }
    }

    /// A result in a short buffer, and that in no buffer with a list of all species: where this is 11, 15 or 16 came ahead of it.
    pub fn short(&mut self, with: With, result: u64, with_all: impl FnOnce() -> u64) {
        if let rule @ 15..=16 = result >> 32 {
            self.short[rule as usize - 15][with as usize] += u64::from(with_all() >> 32 == 11);
        }
    }

    /// A site that was judged with a list.
    pub fn judged(&mut self, site: &Site, list: &[u8]) {
        if !site.kind.has_wide_species() || site.entries == 0 {
            return;
        }
        let stand = &site.stand[..usize::from(site.entries)];
        let mut count = |name, holds| self.judged[row(&JUDGED, name)] += u64::from(holds);
        let listed: Vec<u16> = stand
            .iter()
            .map(|entry| entry.species)
            .filter(|&species| is_listed(species))
            .collect();
        let entries: Vec<&[u8]> = list.chunks_exact(ENTRY).collect();
        let places: Vec<usize> = listed
            .iter()
            .map(|&species| {
                entries
                    .iter()
                    .position(|entry| number(entry) == species)
                    .expect("in the list")
            })
            .collect();
        let any = |holds: &dyn Fn(u16) -> bool| listed.iter().any(|&species| holds(species));
        count("species 256", any(&|species| species == 256));
        count("species 1023", any(&|species| species == 1023));
        count("low byte 0 to 8", any(&|species| species % 256 <= 8));
        let at = |holds: &dyn Fn(usize) -> bool| places.iter().any(|&place| holds(place));
        let last = entries.len().saturating_sub(1);
        count("first of its list", last > 0 && at(&|place| place == 0));
        count("last of its list", last > 0 && at(&|place| place == last));
        count("between these", at(&|place| 0 < place && place < last));
        count("alone in its list", last == 0 && at(&|_| true));
        count("of a list of 768", last == 767 && at(&|_| true));
        count(
            "table and list",
            !listed.is_empty() && listed.len() < stand.len(),
        );
        count("four of the list", listed.len() == 4);
        count("table, with a list", listed.is_empty() && !list.is_empty());
        let content = |index: usize, content: u16| {
            let of = |place: usize| &entries[place][2 + 2 * index..][..2];
            at(&|place| *of(place) == content.to_be_bytes())
        };
        for (index, name) in ["Ca 65535", "Mg 65535", "K 65535", "N 65535"]
            .into_iter()
            .enumerate()
        {
            count(name, content(index, 65535));
        }
        count("no content", (0..4).any(|index| content(index, 0)));
        let ours = terms(site, list).expect("a judged site");
        // Of the table oak has most N, and willow most Ca + Mg + K: 14,993 and 19,510 for 20,000 kg.
        count("Nu above the table's", ours.nitrogen_uptake > 2998);
        count("Bu above the table's", ours.base_uptake > 3902);
        count("Nu 13107", ours.nitrogen_uptake == 13_107);
        let neighbours = entries.iter().zip(entries.iter().cycle().skip(1));
        let other = neighbours.flat_map(|(entry, next)| [&entry[..2], &next[2..]].concat());
        // With these contents a site of kind 55 may be refused by 21.
        let theirs = terms(site, &other.collect::<Vec<u8>>());
        count(
            "not by its neighbour",
            theirs.is_ok_and(|theirs| theirs != ours),
        );
        let is_55 = site.kind == Kind::Tag55;
        count("kind 55, of a list", is_55 && !listed.is_empty());
    }

    /// Lists and refusals, by what is lent with the list, each with whether it is due.
    pub fn rows(&self) -> Vec<(String, ByInput<(u64, bool)>)> {
        let named = |names: &[&str], counts: &[ByInput]| -> Vec<(String, ByInput<(u64, bool)>)> {
            names
                .iter()
                .map(|name| name.to_string())
                .zip(
                    counts
                        .iter()
                        .map(|counts| counts.map(|count| (count, true))),
                )
                .collect()
        };
        let short = ["15 ahead of 11", "16 ahead of 11"];
        let mut outside = named(&OUTSIDE, &self.outside);
        for (_, columns) in &mut outside[OUTSIDE_55] {
            columns[With::Target as usize].1 = false;
        }
        [
            self.lists.rows(),
            named(&LACKING, &self.lacking),
            outside,
            named(&short, &self.short),
        ]
        .concat()
    }

    /// The columns of these rows.
    pub const WITH: ByInput<&str> = WITH;

    /// Two faults of which the first named was given, by what is lent with the list; each with whether it is due.
    pub fn orders(&self) -> Vec<(String, ByInput<(u64, bool)>)> {
        let mut rows = Vec::new();
        let mut add = |counts: &[ByInput], due: ByInput<&[u64]>, name: &dyn Fn(u64) -> String| {
            for (rule, counts) in (0..).zip(counts) {
                let due = due.map(|rules| rules.contains(&rule));
                if due.contains(&true) {
                    let column = |column: usize| (counts[column], due[column]);
                    rows.push((name(rule), std::array::from_fn(column)));
                }
            }
        };
        let ahead = |first: u64| {
            move |rule| match rule {
                0 => format!("{first} alone"),
                _ => format!("{first} ahead of {rule}"),
            }
        };
        add(&self.behind_15, BEHIND_15, &ahead(15));
        add(&self.behind_16, BEHIND_16, &ahead(16));
        add(&self.ahead_of_16, AHEAD_OF_16, &|rule| {
            format!("{rule} ahead of 16")
        });
        rows
    }

    /// Judged stands of kinds 54 and 55.
    pub fn judged_rows(&self) -> Vec<(String, u64)> {
        let names = JUDGED.map(str::to_string);
        names.into_iter().zip(self.judged).collect()
    }
}

fn row(names: &[&str], name: &str) -> usize {
    names
        .iter()
        .position(|&other| other == name)
        .expect("a row")
}

fn number(entry: &[u8]) -> u16 {
    u16::from_be_bytes([entry[0], entry[1]])
}

fn is_listed(species: u16) -> bool {
    (256..=1023).contains(&species)
}

fn has(list: &[u8], species: u16) -> bool {
    list.chunks_exact(ENTRY)
        .any(|entry| number(entry) == species)
}

/// The rows of a stand that names species which the list lacks.
fn lacking(stand: &[Entry], list: &[u8]) -> Vec<&'static str> {
    let numbers: Vec<u16> = list.chunks_exact(ENTRY).map(number).collect();
    let lacks = |&index: &usize| {
        let species = stand[index].species;
        is_listed(species) && !numbers.contains(&species)
    };
    let places: Vec<usize> = (0..stand.len()).filter(lacks).collect();
    let mut names = vec![match places[..] {
        [only] => LACKING[only],
        _ => "16: several entries",
    }];
    for species in places.iter().map(|&place| stand[place].species) {
        names.push(match (numbers.first(), numbers.last()) {
            (Some(&first), _) if species < first => "16: below the first",
            (_, Some(&last)) if species > last => "16: above the last",
            (None, _) => "16: empty list",
            _ => "16: between two",
        });
    }
    names.extend((numbers.len() == 767).then_some("16: list of 767"));
    names
}

/// The stand that is refused.
fn stand(with: With, input: &[u8], offset: usize) -> Vec<Entry> {
    kind_and_stand(with, input, offset).1
}

/// The kind and the stand of a site value, or of the record whose field 07 is refused at an offset; else no kind.
fn kind_and_stand(with: With, input: &[u8], offset: usize) -> (Option<Kind>, Vec<Entry>) {
    match with {
        With::File | With::Record | With::Target => match fault(input, offset) {
            (tag, fields, field) if fields.len() == 6 => {
                (kind_of(tag), stand_in(field, tag >= KIND_54))
            }
            _ => (None, Vec::new()),
        },
        With::Value | With::Months => {
            let site = Site::from_bytes(input).expect("a length that is permitted");
            let entries = usize::from(site.entries.min(4));
            // Where the other values pass, 8 is that of the stand.
            let mut plain = site;
            plain.entries = 1;
            plain.stand[0] = Entry {
                species: 0,
                share: 100,
                growth: 0,
            };
            let kind = forest::check(&plain, &[]).is_ok().then_some(site.kind);
            (kind, site.stand[..entries].to_vec())
        }
    }
}

fn kind_of(tag: u8) -> Option<Kind> {
    KINDS.into_iter().find(|&kind| kind as u8 == tag)
}
