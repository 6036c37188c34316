//! How often sites of kind 55, which lose bicarbonate, occurred by each call, by their carbon dioxide P and by the sign of their
//! net leaching M; the refusal 21, by what stands around it; and what decides the marks.

use crate::due::{but, due, rows, BySource, NOT_MOVED};
use crate::kinds::{fault, fields_in, KIND_55};
use crate::tally::Source;
use forest::{bicarbonate, judge, read_record, terms, Rule, Site, Verdict};
use Source::{Check, List, Pages, Program, Report, Rewrite, To52, To53, To54};

/// Those that read more than one record.
const FILES: BySource<bool> = due(&[List, Pages, Report, Program]);
const RECORDS: BySource<bool> = due(&[List, Pages, Report, Rewrite, Program]);
const INTO_BUFFERS: BySource<bool> = but(&[Report, Check, Program, To52, To53, To54]);

/// Accepted records and site values, then those refused by 21, then those refused by another rule to which 21 would apply.
const ANSWERS: [(&str, BySource<bool>); 20] = [
    ("kind 55: P 0", NOT_MOVED),
    ("kind 55: P 1", NOT_MOVED),
    ("kind 55: P 2 to 4999", NOT_MOVED),
    ("kind 55: P 5000", NOT_MOVED),
    ("kind 55: M above 0", NOT_MOVED),
    ("kind 55: M 0", NOT_MOVED),
    ("kind 55: M below 0", NOT_MOVED),
    ("kind 55: CLmaxS 0", NOT_MOVED),
    ("kind 55: 11", INTO_BUFFERS),
    ("21: CLmaxS -1", NOT_MOVED),
    ("21: CLmaxS below -1", NOT_MOVED),
    ("21: P 5000", NOT_MOVED),
    ("21: a reserve", NOT_MOVED),
    ("21: a later record", FILES),
    ("21: the 500th record", FILES),
    ("21 ahead of a record's", FILES),
    ("21 ahead of 4", RECORDS),
    ("21 ahead of 11", INTO_BUFFERS),
    ("6 after 11, then 21", RECORDS),
    ("8 at 11, then 21", NOT_MOVED),
];

/// Judged sites.
const JUDGED: [&str; 11] = [
    "55: hydrogen-bound",
    "55: aluminium-bound",
    "55: peat",
    "55: over by bicarbonate",
    "55: M below 0, region 0",
    "55: M below 0, region 1",
    "55: M below 0, region 2",
    "55: M below 0, region 3",
    "55: M below 0, region 4",
    "55: M below 0, within",
    "55: as kind 54, by P 0",
];

/// By the sign of M.
const SIGNS: [&str; 3] = ["M below 0", "M 0", "M above 0"];

#[derive(Default)]
pub struct Bicarbonate {
    answers: [BySource; ANSWERS.len()],
    judged: [u64; JUDGED.len()],
    /// By the sign of M: marks held against balances that close, and against balances that do not.
    closing: [u64; 3],
    open: [u64; 3],
    /// Sites that pass and at which a pair closes, and sites refused by 21 at which none does.
    some_closes: u64,
    none_closes: u64,
}

impl Bicarbonate {
    /// The answer to a file or a record with its list.
    pub fn file(&mut self, source: Source, file: &[u8], list: &[u8], result: u64) {
        let (rule, offset) = (result >> 32, result as u32 as usize);
        match rule {
            0 => {
                for (_, record) in fields_in(file, 0, file.len()) {
                    if record[0] == KIND_55 {
                        let site = read_record(record, list).expect("an accepted record");
                        self.accepted(source, &site, list);
                    }
                }
            }
            11 if INTO_BUFFERS[source as usize] => {
                let any = fields_in(file, 0, file.len()).any(|(_, record)| record[0] == KIND_55);
                self.answer("kind 55: 11", source, any);
            }
            21 => self.negative_record(source, file, list, offset),
            6 | 8 => self.ahead_of_21(source, file, list, offset),
            _ => {}
        }
    }

    /// 21 for the record of a file whose field 11 stands at an offset.
    fn negative_record(&mut self, source: Source, file: &[u8], list: &[u8], offset: usize) {
        let records: Vec<_> = fields_in(file, 0, offset).collect();
        let (start, record) = *records.last().expect("a record ahead of it");
        assert_eq!(start + record.len(), offset + 5, "the last field");
        let plain = with_carbon_dioxide(record, 0);
        let site = Site {
            carbon_dioxide: u16::from_be_bytes([file[offset + 3], file[offset + 4]]),
            ..read_record(&plain, list).expect("a record without other faults")
        };
        self.negative(source, &site, list);
        self.answer("21: a later record", source, records.len() > 1);
        self.answer("21: the 500th record", source, records.len() == 500);
        let behind = &file[offset + 5..];
        let most = if matches!(source, Rewrite) { 1 } else { 500 };
        let is_last = records.len() == most && !behind.is_empty();
        self.answer("21 ahead of 4", source, is_last);
        let fault = forest::list(behind, list, &mut []).map_err(|refusal| refusal.rule);
        let is_faulty = !matches!(fault, Err(Rule::Buffer | Rule::NoBytes));
        self.answer("21 ahead of a record's", source, !is_last && is_faulty);
    }

    /// 6 for bytes after field 11, or 8 for its value, where 21 would come without them.
    fn ahead_of_21(&mut self, source: Source, file: &[u8], list: &[u8], offset: usize) {
        let (tag, fields, rest) = fault(file, offset);
        let (name, fields) = match (tag, fields.len(), rest) {
            (KIND_55, 17, [_, ..]) => ("6 after 11, then 21", fields.concat()),
            (KIND_55, 16, [0x11, 0, 2, _, _]) => {
                ("8 at 11, then 21", [&fields.concat(), rest].concat())
            }
            _ => return,
        };
        let mended = [&[KIND_55, 0, fields.len() as u8], &fields[..]].concat();
        let mended = match rest.len() {
            5 if name.starts_with('8') => with_carbon_dioxide(&mended, 5000),
            _ => mended,
        };
        let is_behind =
            read_record(&mended, list).is_err_and(|refusal| refusal.rule == Rule::NegativeLoad);
        self.answer(name, source, is_behind);
    }

    /// The answer to a site value with its list.
    pub fn value(&mut self, source: Source, value: &[u8], list: &[u8], result: u64) {
        let Some(site) = near_neutral_in(value) else {
            return;
        };
        match result >> 32 {
            0 => self.accepted(source, &site, list),
            11 => self.answer("kind 55: 11", source, true),
            21 => self.negative(source, &site, list),
            8 if site.carbon_dioxide > 5000 => {
                let most = Site {
                    carbon_dioxide: 5000,
                    ..site
                };
                let is_behind = forest::check(&most, list)
                    .is_err_and(|refusal| refusal.rule == Rule::NegativeLoad);
                self.answer("8 at 11, then 21", source, is_behind);
            }
            _ => {}
        }
    }

    fn accepted(&mut self, source: Source, site: &Site, list: &[u8]) {
        let p = site.carbon_dioxide;
        self.answer("kind 55: P 0", source, p == 0);
        self.answer("kind 55: P 1", source, p == 1);
        self.answer("kind 55: P 2 to 4999", source, (2..5000).contains(&p));
        self.answer("kind 55: P 5000", source, p == 5000);
        let terms = terms(site, list).expect("an accepted site");
        self.answer("kind 55: M above 0", source, terms.acid_leaching > 0);
        self.answer("kind 55: M 0", source, terms.acid_leaching == 0);
        self.answer("kind 55: M below 0", source, terms.acid_leaching < 0);
        self.answer("kind 55: CLmaxS 0", source, terms.loads(site).max_s == 0);
    }

    /// A site that is refused by 21.
    fn negative(&mut self, source: Source, site: &Site, list: &[u8]) {
        let plain = Site {
            carbon_dioxide: 0,
            ..*site
        };
        let terms = terms(&plain, list).expect("a site without other faults");
        let max_s = terms.loads(&plain).max_s - bicarbonate(site, terms.level);
        assert!(max_s < 0, "CLmaxS below 0");
        self.answer("21: CLmaxS -1", source, max_s == -1);
        self.answer("21: CLmaxS below -1", source, max_s < -1);
        self.answer("21: P 5000", source, site.carbon_dioxide == 5000);
        self.answer("21: a reserve", source, site.entries == 0);
    }

    /// A result in a buffer of so many bytes or numbers.
    pub fn room(&mut self, source: Source, room: usize, result: u64) {
        let least = match source {
            Source::Level => 2,
            Source::Loads => 4,
            Source::Judge => 8,
            Source::Sample => 10,
            // A line of the listing is shorter than the shortest record.
            _ => 30,
        };
        let is_short = INTO_BUFFERS[source as usize] && room < least;
        self.answer("21 ahead of 11", source, result >> 32 == 21 && is_short);
    }

    fn answer(&mut self, name: &str, source: Source, holds: bool) {
        let row = ANSWERS.iter().position(|&(row, _)| row == name);
        self.answers[row.expect("a row")][source as usize] += u64::from(holds);
    }

    /// A site of kind 55 that was judged, its region and whether it is over.
    pub fn judged(&mut self, site: &Site, list: &[u8], region: usize, over: bool) {
        let mut count = |name, holds: bool| {
            let row = JUDGED.iter().position(|&row| row == name);
            self.judged[row.expect("a row")] += u64::from(holds);
        };
        let terms = terms(site, list).expect("a judged site");
        let hydrogen_bound = terms.level == i64::from(site.hydrogen_ceiling);
        count("55: hydrogen-bound", hydrogen_bound);
        count("55: aluminium-bound", !hydrogen_bound);
        count("55: peat", site.parent_material == 0);
        let plain = Site {
            carbon_dioxide: 0,
            ..*site
        };
        let was_within = judge(&plain, list).expect("a good site").verdict == Verdict::Within;
        count("55: over by bicarbonate", over && was_within);
        let is_below = terms.acid_leaching < 0;
        count(JUDGED[4 + region], is_below);
        count("55: M below 0, within", is_below && !over);
    }

    /// A site whose mark was held against its balances, and whether they close.
    pub fn balanced(&mut self, site: &Site, list: &[u8], close: bool) {
        let net = terms(site, list).expect("a judged site").acid_leaching;
        let counts = if close {
            &mut self.closing
        } else {
            &mut self.open
        };
        counts[(1 + net.signum()) as usize] += 1;
    }

    /// A site that was held against all pairs, and whether any closes.
    pub fn paired(&mut self, any_closes: bool) {
        if any_closes {
            self.some_closes += 1;
        } else {
            self.none_closes += 1;
        }
    }

    /// A site without carbon dioxide that has the numbers of the same site in kind 54.
    pub fn as_54(&mut self) {
        self.judged[JUDGED.len() - 1] += 1;
    }

    /// By source, each with whether it is due.
    pub fn answer_rows(&self, with_program: bool) -> Vec<(String, BySource<(u64, bool)>)> {
        rows(&ANSWERS, &self.answers, with_program)
    }

    pub fn judged_rows(&self) -> Vec<(String, u64)> {
        let names = JUDGED.map(str::to_string);
        let mut rows: Vec<_> = names.into_iter().zip(self.judged).collect();
        for (name, counts) in [("close", self.closing), ("do not", self.open)] {
            let names = SIGNS.map(|sign| format!("55: {name}, {sign}"));
            rows.extend(names.into_iter().zip(counts));
        }
        rows.push(("55: a pair closes".to_string(), self.some_closes));
        rows.push(("21: no pair closes".to_string(), self.none_closes));
        rows
    }
}

/// The site value, where it is one of kind 55.
pub fn near_neutral_in(value: &[u8]) -> Option<Site> {
    let site = Site::from_bytes(value).ok();
    site.filter(|site| site.kind as u8 == KIND_55)
}

/// A record that ends with field 11, with another value there.
fn with_carbon_dioxide(record: &[u8], p: u16) -> Vec<u8> {
    let (rest, _) = record.split_at(record.len() - 2);
    [rest, &p.to_be_bytes()].concat()
}
