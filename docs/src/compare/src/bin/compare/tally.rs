//! How often each kind of answer, site and file occurred.

use crate::bicarbonate::Bicarbonate;
use crate::converted::Converted;
use crate::kinds::{entries_of, fields_in, Kinds, KIND_55};
use crate::reserves::Reserves;
use crate::sampled::Sampled;
use crate::species::Species;
use crate::verdicts::{Verdicts, JUDGE, LINES, PAGE_LINES, SAMPLE};
use compare::files::PAGE_BORDERS;
use forest::{terms, Kind, Site, Terms};
use std::ops::RangeInclusive;

#[derive(Clone, Copy)]
pub enum Source {
    List,
    Pages,
    Report,
    Rewrite,
    To52,
    To53,
    To54,
    Check,
    Loads,
    Level,
    Judge,
    Sample,
    Program,
}

impl Source {
    /// Of conversions, by their target.
    pub fn to(target: Kind) -> Source {
        match target {
            Kind::Tag52 => Source::To52,
            Kind::Tag53 => Source::To53,
            Kind::Tag54 => Source::To54,
            Kind::Tag55 => unreachable!("a kind that is no target"),
        }
    }
}

/// The sources, and the rules that each can refuse by.
pub const SOURCES: [(&str, &[RangeInclusive<usize>]); 13] = [
    ("list", &[1..=11, 15..=16, 21..=21]),
    ("pages", &[1..=11, 15..=16, 21..=21]),
    ("report", &[1..=11, 15..=16, 21..=21]),
    ("rewrite", &[1..=11, 15..=16, 21..=21]),
    ("to 52", &[1..=11, 15..=17]),
    ("to 53", &[1..=11, 15..=17]),
    ("to 54", &[1..=11, 15..=16]),
    ("check", &[7..=10, 15..=16, 21..=21]),
    ("loads", &[7..=11, 15..=16, 21..=21]),
    ("level", &[7..=11, 15..=16, 21..=21]),
    ("judge", &[7..=11, 15..=16, 21..=21]),
    ("sample", &[7..=16, 21..=21]),
    ("program", &[1..=10, 16..=16, 21..=21]),
];

const PARENT_MATERIALS: [&str; 5] = ["organic", "acidic", "intermediate", "basic", "calcareous"];
const SPECIES: [&str; 9] = [
    "pine",
    "spruce",
    "beech, hornbeam",
    "oak",
    "alder",
    "birch",
    "mountain pine",
    "willow",
    "other deciduous",
];

/// How many levels can be compared. No ceiling below 33 is ever forbidden, since al(32) is 0 at every site; from 33 on the
/// search takes 6 levels or more.
const COMPARED: [usize; 10] = [1, 6, 7, 8, 9, 10, 11, 12, 13, 14];

/// The bytes of a full page.
pub const PAGE: usize = 60 * 65;
/// The bytes of a full page's records at most: a fault from here on is one after a page.
const PAGE_RECORDS: usize = 59 * 109;

/// The sites that are counted for themselves too: reserves, and sites of kind 55.
const SORTS: [&str; 2] = ["reserve", "kind 55"];

/// Which of them a site is.
type Sorts = [bool; SORTS.len()];

#[derive(Default)]
pub struct Tally {
    /// By source, then by rule; 0 stands for success.
    answers: [[u64; 22]; SOURCES.len()],
    verdicts: Verdicts,
    verdicts_of: [Verdicts; SORTS.len()],
    /// Successes for files of so many records, and for files of more than a page.
    page_borders: [u64; PAGE_BORDERS.len()],
    page_breaks: u64,
    /// In a buffer with room for a page: 11, and a fault after a page.
    room_for_a_page: u64,
    fault_after_a_page: u64,
    parent_materials: [u64; 5],
    drainages: [u64; 6],
    /// Organic parent material by drainage and by region, and within though the part of its drainage would make it over.
    peat: [u64; 6],
    peat_regions: [u64; 5],
    peat_within_by_800: u64,
    table: [u64; 9],
    hydrogen_bound: u64,
    aluminium_bound: u64,
    /// By how many levels were compared, at all sites and by sort.
    compared: [u64; 15],
    compared_of: [[u64; 15]; SORTS.len()],
    sampled: Sampled,
    pub kinds: Kinds,
    pub species: Species,
    pub converted: Converted,
    pub reserves: Reserves,
    pub bicarbonate: Bicarbonate,
}

impl Tally {
    /// The answer to a file or a record with its list.
    pub fn answer(&mut self, source: Source, file: &[u8], list: &[u8], result: u64) {
        let rule = (result >> 32) as usize;
        self.answers[source as usize][rule] += 1;
        self.reserves.file(source, file, list, rule);
        self.bicarbonate.file(source, file, list, result);
    }

    /// The answer of one of the calls from check to sample to a site value with its list.
    pub fn value(&mut self, source: Source, value: &[u8], list: &[u8], result: u64) {
        let rule = (result >> 32) as usize;
        self.answers[source as usize][rule] += 1;
        self.reserves.value(source, value, list, rule);
        self.bicarbonate.value(source, value, list, result);
        let call = source as usize - Source::Check as usize;
        self.kinds.value(call, value, list, result);
    }

    /// What is to be printed for a file with its list: a listing or the line of a refusal.
    pub fn printed(&mut self, source: Source, file: &[u8], list: &[u8], text: &[u8]) {
        let text = std::str::from_utf8(text).expect("ASCII");
        if let Some(refused) = text.strip_prefix("refused ") {
            let (rule, offset) = refused.split_once(" at ").expect("a rule and its offset");
            let [rule, offset] = [rule, offset.trim_end()].map(|word| word.parse::<u64>());
            let result = (rule.expect("a number") << 32) + offset.expect("a number");
            self.answer(source, file, list, result);
            return;
        }
        self.answer(source, file, list, 0);
        for (line, sorts) in text.lines().skip(1).zip(sorts_in(file)) {
            let words: Vec<&str> = line.split(' ').collect();
            let region = words[5].parse().expect("a region");
            self.verdict(LINES, sorts, region, words[8] == "over");
        }
    }

    /// The result of `forest_pages` for a file with its list in a buffer of so many bytes. The file has so many records, 0 where it
    /// is refused.
    pub fn pages(&mut self, file: &[u8], list: &[u8], records: usize, room: usize, result: u64) {
        self.answer(Source::Pages, file, list, result);
        let (rule, offset) = (result >> 32, result as u32 as usize);
        if rule == 0 {
            for (count, border) in self.page_borders.iter_mut().zip(PAGE_BORDERS) {
                *count += u64::from(records == border);
            }
            self.page_breaks += u64::from(records > 59);
        } else if room >= PAGE {
            self.room_for_a_page += u64::from(rule == 11);
            self.fault_after_a_page += u64::from(offset >= PAGE_RECORDS);
        }
    }

    /// The lines of a file's pages, but for the header of each.
    pub fn page_lines(&mut self, file: &[u8], text: &[u8]) {
        let lines = text.chunks(PAGE).flat_map(|page| page.chunks(65).skip(1));
        for (line, sorts) in lines.zip(sorts_in(file)) {
            let region = usize::from(line[41] - b'0');
            self.verdict(PAGE_LINES, sorts, region, line[59..63] == *b"over");
        }
    }

    fn verdict(&mut self, by: usize, sorts: Sorts, region: usize, over: bool) {
        self.verdicts.count(by, region, over);
        for (verdicts, is_such) in self.verdicts_of.iter_mut().zip(sorts) {
            if is_such {
                verdicts.count(by, region, over);
            }
        }
    }

    /// A site that was judged with a list, with the numbers of `forest_judge`.
    pub fn judged(&mut self, site: &Site, list: &[u8], numbers: &[u64]) {
        let terms = terms(site, list).expect("a judged site");
        let (region, over) = (numbers[4] as usize, numbers[7] == 1);
        let [is_reserve, is_55] = sorts_of(site);
        self.verdict(JUDGE, [is_reserve, is_55], region, over);
        self.parent_materials[usize::from(site.parent_material)] += 1;
        self.drainages[usize::from(site.drainage)] += 1;
        if site.parent_material == 0 {
            self.peat[usize::from(site.drainage)] += 1;
            self.peat_regions[region] += 1;
            let by_drainage = over_by_drainage(site, &terms, numbers);
            self.peat_within_by_800 += u64::from(!over && by_drainage);
        }
        for entry in &site.stand[..usize::from(site.entries)] {
            if let Some(count) = self.table.get_mut(usize::from(entry.species)) {
                *count += 1;
            }
        }
        if terms.level == i64::from(site.hydrogen_ceiling) {
            self.hydrogen_bound += 1;
        } else {
            self.aluminium_bound += 1;
        }
        self.kinds.judged(site, list);
        self.species.judged(site, list);
        if is_reserve {
            self.reserves.judged(site, list);
        }
        if is_55 {
            self.bicarbonate.judged(site, list, region, over);
        }
    }

    /// A site value at which so many levels were compared.
    pub fn compared(&mut self, value: &[u8], levels: usize) {
        self.compared[levels] += 1;
        let site = Site::from_bytes(value).expect("a site with a level");
        for (counts, is_such) in self.compared_of.iter_mut().zip(sorts_of(&site)) {
            counts[levels] += u64::from(is_such);
        }
    }

    /// A site value with its list and its sampler's months: the result in a buffer with room, and the numbers there.
    pub fn sampled(
        &mut self,
        value: &[u8],
        list: &[u8],
        months: &[u8],
        result: u64,
        numbers: &[u64; 10],
    ) {
        if result == 10 {
            let site = Site::from_bytes(value).expect("a judged site");
            self.verdict(
                SAMPLE,
                sorts_of(&site),
                numbers[6] as usize,
                numbers[9] == 1,
            );
        }
        if let (Ok(()), Ok(site)) = (forest::check_list(list), Site::from_bytes(value)) {
            self.sampled.count(&site, list, months, result, numbers);
        }
    }

    /// Prints the counts and returns how many kinds are due and never occurred.
    pub fn print(&self, with_program: bool) -> u64 {
        let mut absent = 0;
        let sources = &SOURCES[..SOURCES.len() - usize::from(!with_program)];

        print!("{:<24}", "");
        sources.iter().for_each(|(name, _)| print!("{name:>10}"));
        println!();
        for rule in (0..=17).chain([21]) {
            match rule {
                0 => print!("{:<24}", "success"),
                _ => print!("{:<24}", format!("refusal {rule}")),
            }
            for ((_, rules), answers) in sources.iter().zip(&self.answers) {
                let is_due = rule == 0 || rules.iter().any(|rules| rules.contains(&rule));
                absent += cell(answers[rule], is_due);
            }
            println!();
        }

        let named = |name: &str| name.to_string();
        let mut rows = self.verdicts.rows();
        for (sort, verdicts) in SORTS.into_iter().zip(&self.verdicts_of) {
            let verdicts = verdicts.rows().into_iter();
            rows.extend(verdicts.map(|(name, counts)| (format!("{sort}, {name}"), counts)));
        }
        absent += table(["judge", "lines", "pages", "sample"], rows);

        let mut kinds: Vec<(String, u64)> = Vec::new();
        kinds.extend(
            PARENT_MATERIALS
                .map(named)
                .into_iter()
                .zip(self.parent_materials),
        );
        kinds.extend(numbered("drainage", &self.drainages));
        kinds.extend(numbered("peat, drainage", &self.peat));
        kinds.extend(numbered("peat, region", &self.peat_regions));
        kinds.push((named("peat, within by 800"), self.peat_within_by_800));
        kinds.extend(SPECIES.map(named).into_iter().zip(self.table));
        kinds.push((named("hydrogen-bound"), self.hydrogen_bound));
        kinds.push((named("aluminium-bound"), self.aluminium_bound));
        kinds.extend(self.kinds.judged_rows());
        kinds.extend(self.species.judged_rows());
        kinds.extend(self.reserves.judged_rows());
        kinds.extend(self.bicarbonate.judged_rows());
        absent += column("judge", kinds);

        let names = SOURCES.map(|(name, _)| name);
        let mut answers = self.reserves.answer_rows(with_program);
        answers.extend(self.bicarbonate.answer_rows(with_program));
        absent += table_of_due(names, answers);

        let calls = ["rewrite", "list", "convert", "judge"];
        absent += table_of_due(calls, self.kinds.accepted_rows());
        absent += column("list", self.kinds.files());
        let calls = ["rewrite", "list", "convert"];
        let mut refusals = self.kinds.refusal_rows();
        refusals.extend(all_due(self.reserves.record_rows()));
        absent += table_of_due(calls, refusals);
        let calls = ["check", "loads", "level", "judge", "sample"];
        let mut values = self.kinds.value_rows();
        values.extend(self.reserves.fault_rows());
        absent += table(calls, values);

        absent += table_of_due(Species::WITH, self.species.rows());
        absent += table_of_due(Species::WITH, self.species.orders());

        absent += table_of_due(["to 52", "to 53", "to 54"], self.converted.rows());
        absent += column("convert", self.converted.other_rows());

        let mut rows = COMPARED
            .map(|k| (format!("compared: {k}"), self.compared[k]))
            .to_vec();
        for (sort, counts) in SORTS.into_iter().zip(self.compared_of) {
            rows.extend(COMPARED.map(|k| (format!("{sort}, compared: {k}"), counts[k])));
        }
        absent += column("level", rows);

        let borders = PAGE_BORDERS.map(|count| format!("records: {count}"));
        let mut kinds: Vec<(String, u64)> = borders.into_iter().zip(self.page_borders).collect();
        kinds.push((named("page break"), self.page_breaks));
        kinds.push((named("11, room for a page"), self.room_for_a_page));
        kinds.push((named("fault after a page"), self.fault_after_a_page));
        absent += column("pages", kinds);
        absent + column("sample", self.sampled.kinds())
    }
}

/// Whether the pair would be over with the part by its drainage, as for every other parent material.
fn over_by_drainage(site: &Site, terms: &Terms, numbers: &[u64]) -> bool {
    let e = [1000, 900, 800, 600, 300, 200][usize::from(site.drainage)];
    let left = e * u64::from(site.nitrogen).saturating_sub(numbers[1]);
    left > 1000 * terms.leaching as u64 || 1000 * u64::from(site.sulphur) + left > 1000 * numbers[0]
}

fn sorts_of(site: &Site) -> Sorts {
    [site.entries == 0, site.kind as u8 == KIND_55]
}

/// Those of the records of an accepted file.
fn sorts_in(file: &[u8]) -> impl Iterator<Item = Sorts> + '_ {
    let sorts = |(_, record): (usize, &[u8])| [entries_of(record) == 0, record[0] == KIND_55];
    fields_in(file, 0, file.len()).map(sorts)
}

/// Counts by number, each named with it.
fn numbered<'a>(name: &'a str, counts: &'a [u64]) -> impl Iterator<Item = (String, u64)> + 'a {
    (0..)
        .map(move |k| format!("{name} {k}"))
        .zip(counts.iter().copied())
}

/// Prints a column of kinds that are all due; returns how many never occurred.
fn column(title: &str, kinds: Vec<(String, u64)>) -> u64 {
    let rows = kinds.into_iter().map(|(name, count)| (name, [count]));
    table([title], rows.collect())
}

/// Prints columns of kinds that are all due; returns how many never occurred.
fn table<const N: usize>(titles: [&str; N], rows: Vec<(String, [u64; N])>) -> u64 {
    table_of_due(titles, all_due(rows))
}

/// The rows, all due.
fn all_due<const N: usize>(rows: Vec<(String, [u64; N])>) -> Vec<(String, [(u64, bool); N])> {
    let due = |(name, counts): (String, [u64; N])| (name, counts.map(|count| (count, true)));
    rows.into_iter().map(due).collect()
}

/// Prints columns of kinds, each with whether it is due; returns how many that are due never occurred.
fn table_of_due<const N: usize>(titles: [&str; N], rows: Vec<(String, [(u64, bool); N])>) -> u64 {
    print!("\n{:<24}", "");
    titles.iter().for_each(|title| print!("{title:>10}"));
    println!();
    let mut absent = 0;
    for (name, counts) in rows {
        print!("{name:<24}");
        for (count, is_due) in counts {
            absent += cell(count, is_due);
        }
        println!();
    }
    absent
}

/// Prints a count; returns 1 where it is due and 0.
fn cell(count: u64, due: bool) -> u64 {
    match (count, due) {
        (0, false) => print!("{:>10}", "-"),
        (0, true) => print!("{:>10}", "NONE"),
        _ => print!("{count:>10}"),
    }
    u64::from(count == 0 && due)
}
