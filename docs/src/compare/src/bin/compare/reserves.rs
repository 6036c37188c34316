//! How often reserves, the sites whose stand has no entries, occurred by each call, beside stands, and in refusals at the fields
//! around their field 07; and what decides their mark.

use crate::due::{but, due, rows, BySource, ALL, INTO_BUFFERS, NOT_MOVED, VALUES};
use crate::kinds::{end_of, entries_of, fault, fields_in, is_mended, By, KIND_52};
use crate::tally::Source;
use compare::lists::ENTRY;
use forest::{judge, terms, Site, Verdict};
use Source::{Check, List, Pages, Program, Report, To52, To53, To54};

/// The program lends an empty list.
const LENT: BySource<bool> = but(&[Program]);
const FILES: BySource<bool> = due(&[List, Pages, Report, To52, To53, To54, Program]);

/// Accepted records and site values, then accepted files of several records, and site values behind whose count 0 a stand lies.
const ANSWERS: [(&str, BySource<bool>); 13] = [
    ("reserve of kind 52", ALL),
    ("reserve of kind 53", ALL),
    ("reserve of kind 54", ALL),
    ("reserve of kind 55", NOT_MOVED),
    ("reserve, empty list", ALL),
    ("reserve, list of 768", LENT),
    ("11 at a reserve", INTO_BUFFERS),
    ("15 at a reserve", LENT),
    ("reserves alone", FILES),
    ("500 reserves", FILES),
    ("after four entries", FILES),
    ("ahead of a stand", FILES),
    ("a stand lies behind", VALUES),
];

/// Refusals of records at a reserve, in the field ahead of 07, in 08 and in 10.
const RECORDS: [&str; 9] = [
    "reserve: 7 at field 06",
    "reserve: 8 at field 06",
    "reserve: 5 at field 08",
    "reserve: 6 for field 08",
    "reserve: 6, no field 08",
    "reserve: 7 at field 08",
    "reserve: 8 at field 08",
    "reserve: 6, no field 10",
    "reserve: 8 at field 10",
];

/// Reserves as site values with one value out of its range.
const FAULTS: [&str; 3] = [
    "reserve: 8 by field 06",
    "reserve: 8 by field 08",
    "reserve: 8 by field 10",
];

/// Judged reserves, and those that have another mark than with the stand that lies behind their count.
const JUDGED: [&str; 6] = [
    "reserve on peat",
    "reserve, B + w < Q/10",
    "reserve, hydrogen-bound",
    "reserve, aluminium-bound",
    "within, with stand over",
    "over, with stand within",
];

/// Field 07 of a reserve.
const NO_STAND: [u8; 3] = [0x07, 0, 0];

#[derive(Default)]
pub struct Reserves {
    answers: [BySource; ANSWERS.len()],
    /// By rewrite, list and convert.
    records: [[u64; 3]; RECORDS.len()],
    /// By check, loads, level, judge and sample.
    faults: [[u64; 5]; FAULTS.len()],
    judged: [u64; JUDGED.len()],
    /// By kind: marks held against balances that close, against balances that do not, and numbers against those of a stand that
    /// does not grow.
    closing: [u64; 4],
    open: [u64; 4],
    without_growth: [u64; 4],
}

impl Reserves {
    /// The rule by which a file or a record with its list was refused, 0 where it was not.
    pub fn file(&mut self, source: Source, file: &[u8], list: &[u8], rule: usize) {
        match rule {
            0 => self.accepted_file(source, file, list),
            11 if INTO_BUFFERS[source as usize] => {
                let any = fields_in(file, 0, file.len()).any(|(_, record)| entries_of(record) == 0);
                self.answer("11 at a reserve", source, any);
            }
            15 => {
                let single = forest::read_record(file, &[]);
                let is_reserve = single.is_ok_and(|site| site.entries == 0);
                self.answer("15 at a reserve", source, is_reserve);
            }
            _ => {}
        }
    }

    fn accepted_file(&mut self, source: Source, file: &[u8], list: &[u8]) {
        let mut entries = Vec::new();
        for (_, record) in fields_in(file, 0, file.len()) {
            entries.push(entries_of(record));
            if entries.ends_with(&[0]) {
                self.accepted(source, record[0], list);
            }
        }
        let reserves = entries.iter().filter(|&&entries| entries == 0).count();
        let alone = reserves == entries.len() && reserves > 1;
        self.answer("reserves alone", source, alone);
        self.answer("500 reserves", source, reserves == 500);
        for pair in entries.windows(2) {
            self.answer("after four entries", source, *pair == [4, 0]);
            self.answer("ahead of a stand", source, pair[0] == 0 && pair[1] > 0);
        }
    }

    /// A site value with its list, and the rule by which it was refused, 0 where it was not.
    pub fn value(&mut self, source: Source, value: &[u8], list: &[u8], rule: usize) {
        let Some(site) = reserve_in(value) else {
            return;
        };
        match rule {
            0 => {
                self.accepted(source, site.kind as u8, list);
                self.answer("a stand lies behind", source, lying(&site, list).is_some());
            }
            11 => self.answer("11 at a reserve", source, true),
            15 => {
                let passes = forest::check(&site, &[]).is_ok();
                self.answer("15 at a reserve", source, passes);
            }
            8 => {
                let call = source as usize - Check as usize;
                let alone = [
                    is_mended(value, list, 14, &[0, 1]),
                    is_mended(value, list, 33, &[0, 0]),
                    value.len() > 50 && is_mended(value, list, 50, &[0]),
                ];
                for (counts, alone) in self.faults.iter_mut().zip(alone) {
                    counts[call] += u64::from(alone);
                }
            }
            _ => {}
        }
    }

    /// A reserve of a kind.
    fn accepted(&mut self, source: Source, kind: u8, list: &[u8]) {
        self.answers[usize::from(kind - KIND_52)][source as usize] += 1;
        self.answer("reserve, empty list", source, list.is_empty());
        let is_full = list.len() == 768 * ENTRY;
        self.answer("reserve, list of 768", source, is_full);
    }

    fn answer(&mut self, name: &str, source: Source, holds: bool) {
        let row = ANSWERS.iter().position(|&(row, _)| row == name);
        self.answers[row.expect("a row")][source as usize] += u64::from(holds);
    }

    /// A single record or a file, with the result in a buffer with room.
    pub fn records(&mut self, by: By, file: &[u8], result: u64) {
        if let Some(name) = refusal(file, result >> 32, result as u32 as usize) {
            let row = RECORDS.iter().position(|&row| row == name);
            self.records[row.expect("a row")][by as usize] += 1;
        }
    }

    /// A reserve that was judged.
    pub fn judged(&mut self, site: &Site, list: &[u8]) {
        let mut count = |name, holds: bool| {
            let row = JUDGED.iter().position(|&row| row == name);
            self.judged[row.expect("a row")] += u64::from(holds);
        };
        let terms = terms(site, list).expect("a judged site");
        count("reserve on peat", site.parent_material == 0);
        let supply = i64::from(site.base_deposition) + terms.available;
        let least = i64::from(site.percolation) / 10;
        count("reserve, B + w < Q/10", supply < least);
        let hydrogen_bound = terms.level == i64::from(site.hydrogen_ceiling);
        count("reserve, hydrogen-bound", hydrogen_bound);
        count("reserve, aluminium-bound", !hydrogen_bound);
        if let Some(stand) = lying(site, list) {
            let is_within =
                |site| judge(site, list).expect("a good site").verdict == Verdict::Within;
            let [within, with_stand] = [site, &stand].map(is_within);
            count("within, with stand over", within && !with_stand);
            count("over, with stand within", !within && with_stand);
        }
    }

    /// A reserve whose mark was held against its balances, and whether they close.
    pub fn balanced(&mut self, site: &Site, close: bool) {
        let counts = if close {
            &mut self.closing
        } else {
            &mut self.open
        };
        counts[kind_of(site)] += 1;
    }

    /// A reserve whose numbers were held against those of a stand that does not grow.
    pub fn without_growth(&mut self, site: &Site) {
        self.without_growth[kind_of(site)] += 1;
    }

    /// By source, each with whether it is due.
    pub fn answer_rows(&self, with_program: bool) -> Vec<(String, BySource<(u64, bool)>)> {
        rows(&ANSWERS, &self.answers, with_program)
    }

    /// Refusals of records, by rewrite, list and convert.
    pub fn record_rows(&self) -> Vec<(String, [u64; 3])> {
        let names = RECORDS.map(str::to_string);
        names.into_iter().zip(self.records).collect()
    }

    /// Refusals of site values, by check, loads, level, judge and sample.
    pub fn fault_rows(&self) -> Vec<(String, [u64; 5])> {
        let names = FAULTS.map(str::to_string);
        names.into_iter().zip(self.faults).collect()
    }

    pub fn judged_rows(&self) -> Vec<(String, u64)> {
        let names = JUDGED.map(str::to_string);
        let mut rows: Vec<_> = names.into_iter().zip(self.judged).collect();
        for (name, counts) in [
            ("balances close", self.closing),
            ("balances do not", self.open),
            ("as without growth", self.without_growth),
        ] {
            let kinds = [52, 53, 54, 55].map(|kind| format!("{name}, {kind}"));
            rows.extend(kinds.into_iter().zip(counts));
        }
        rows
    }
}

/// 0 to 3 for the kinds 52 to 55.
fn kind_of(site: &Site) -> usize {
    usize::from(site.kind as u8 - KIND_52)
}

/// The site value, where it is one of a reserve.
pub fn reserve_in(value: &[u8]) -> Option<Site> {
    let site = Site::from_bytes(value).ok();
    site.filter(|site| site.entries == 0)
}

/// A reserve with the stand that lies behind its count, where there is a good one.
fn lying(site: &Site, list: &[u8]) -> Option<Site> {
    let with = |entries| Site { entries, ..*site };
    let passes = |site: &Site| forest::check(site, list).is_ok();
    (1..=4).map(with).find(passes)
}

/// The row of a refusal, where it is one at a reserve.
fn refusal(file: &[u8], rule: u64, offset: usize) -> Option<&'static str> {
    if !(5..=8).contains(&rule) {
        return None;
    }
    let (_, ahead, rest) = fault(file, offset);
    let is_reserve = match ahead.len() {
        // Field 06 is whole, and what follows it need not be.
        5 if rule > 6 => rest[end_of(rest, 0)..].starts_with(&NO_STAND),
        _ => ahead.get(6) == Some(&&NO_STAND[..]),
    };
    Some(match (ahead.len(), rule, rest) {
        _ if !is_reserve => return None,
        (5, 7, _) => "reserve: 7 at field 06",
        (5, 8, _) => "reserve: 8 at field 06",
        (7, 5, _) => "reserve: 5 at field 08",
        (7, 6, []) => "reserve: 6, no field 08",
        (7, 6, _) => "reserve: 6 for field 08",
        (7, 7, _) => "reserve: 7 at field 08",
        (7, 8, _) => "reserve: 8 at field 08",
        (15, 6, []) => "reserve: 6, no field 10",
        (15, 8, _) => "reserve: 8 at field 10",
        _ => return None,
    })
}
