//! How often each kind of record and of site value occurred, and each refusal in which they differ. That a site of kind 52
//! counts as at 8 °C no bytes can show, since none of them carries a temperature: contracts and the forest's tests do.

use forest::{judge, temperature_factor, Entry, Kind, Site, Verdict, EIGHT_DEGREES};

pub const KIND_52: u8 = Kind::Tag52 as u8;
pub const KIND_53: u8 = Kind::Tag53 as u8;
pub const KIND_54: u8 = Kind::Tag54 as u8;
pub const KIND_55: u8 = Kind::Tag55 as u8;

/// Who takes records of all kinds, or site values.
#[derive(Clone, Copy)]
pub enum By {
    Rewrite,
    List,
    Convert,
    Judge,
}

/// Refusals of records. Field 10 is that of kind 53 and the later ones; after 0F it stands in a record of kind 52. Field 11 is
/// that of kind 55; after 10 it stands in one of kind 54.
const REFUSALS: [&str; 27] = [
    "3 at tag 51",
    "3 at tag 56",
    "3 at another tag",
    "6 after 0F, field 10",
    "6 after 10, field 11",
    "53: 5 at field 10",
    "53: 6 for field 10",
    "53: 6 at the end, no 10",
    "53: 6 after field 10",
    "53: 7 at field 10",
    "53: 8 at field 10",
    "54: 5 at field 10",
    "54: 6 for field 10",
    "54: 6 at the end, no 10",
    "54: 6 after field 10",
    "54: 7 at field 10",
    "54: 8 at field 10",
    "52: 7, stand of fives",
    "53: 7, stand of fives",
    "54: 7, stand of fours",
    "52: 7, five entries",
    "53: 7, five entries",
    "54: 7, five entries",
    "52: 7, another length",
    "53: 7, another length",
    "54: 7, another length",
    "7, name of no bytes",
];

/// Refusals of records of kind 55, which a conversion never reads.
const REFUSALS_55: [&str; 15] = [
    "55: 5 at field 10",
    "55: 6 for field 10",
    "55: 6 at the end, no 10",
    "55: 7 at field 10",
    "55: 8 at field 10",
    "55: 5 at field 11",
    "55: 6 for field 11",
    "55: 6 at the end, no 11",
    "55: 6 after field 11",
    "55: 7 at field 11",
    "55: 8 at field 11",
    "55: 8 at 11, by 5001",
    "55: 7, stand of fours",
    "55: 7, five entries",
    "55: 7, another length",
];

/// Answers to site values.
const VALUES: [&str; 17] = [
    "50 bytes",
    "51 bytes",
    "55 bytes",
    "57 bytes",
    "7 for 49 bytes",
    "7 for 52 bytes",
    "7 for 54 bytes",
    "7 for 56 bytes",
    "7 for 58 bytes",
    "7 for another length",
    "7 by a name of no bytes",
    "7 by a count of 5",
    "7 by a count of 255",
    "53: 8 by temperature",
    "54: 8 by temperature",
    "55: 8 by temperature",
    "55: 8 by carbon dioxide",
];

/// Accepted files of several records, by which kinds they have. The first seven can be moved.
pub const FILES: [&str; 15] = [
    "kind 52 alone",
    "kind 53 alone",
    "kinds 52 and 53",
    "kind 54 alone",
    "kinds 52 and 54",
    "kinds 53 and 54",
    "kinds 52, 53 and 54",
    "kind 55 alone",
    "kinds 52 and 55",
    "kinds 53 and 55",
    "kinds 52, 53 and 55",
    "kinds 54 and 55",
    "kinds 52, 54 and 55",
    "kinds 53, 54 and 55",
    "all four kinds",
];
/// How many of them can be moved.
pub const MOVABLE: usize = 7;

#[derive(Default)]
pub struct Kinds {
    /// Accepted records and judged site values: by rewrite, list, convert and judge.
    kinds: [[u64; 4]; 4],
    /// Of kinds 53, 54 and 55.
    temperatures: [[[u64; 4]; 26]; 3],
    /// By rewrite, list and convert.
    refusals: [[u64; 3]; REFUSALS.len()],
    refusals_55: [[u64; 3]; REFUSALS_55.len()],
    files: [u64; FILES.len()],
    /// By check, loads, level, judge and sample.
    values: [[u64; 5]; VALUES.len()],
    /// Of kinds 53, 54 and 55: W where rounding before t is applied gives another one, and a mark that is another at 8 °C.
    rounded_once: u64,
    within_by_t: u64,
    over_by_t: u64,
}

impl Kinds {
    /// A single record or a file, with the result in a buffer with room.
    pub fn records(&mut self, by: By, file: &[u8], result: u64) {
        let (rule, offset) = (result >> 32, result as u32 as usize);
        if rule == 0 {
            self.accepted(by, file);
        } else if let Some(name) = refusal(file, rule, offset) {
            let counts = self.refusals.iter_mut().chain(&mut self.refusals_55);
            let row = rows_of_refusals()
                .zip(counts)
                .find(|((row, _), _)| *row == name);
            row.expect("a row").1[by as usize] += 1;
        }
    }

    fn accepted(&mut self, by: By, file: &[u8]) {
        for (_, record) in fields_in(file, 0, file.len()) {
            let kind = usize::from(record[0] - KIND_52);
            self.kinds[kind][by as usize] += 1;
            if kind > 0 {
                let (at, _) = fields_in(record, 3, record.len())
                    .nth(15)
                    .expect("field 10");
                let temperature = usize::from(record[at + 3]);
                self.temperatures[kind - 1][temperature][by as usize] += 1;
            }
        }
        if let (By::List, Some(row)) = (by, files_row(file)) {
            self.files[row] += 1;
        }
    }

    /// A site that was judged.
    pub fn judged(&mut self, site: &Site, list: &[u8]) {
        let (by, kind) = (By::Judge as usize, usize::from(site.kind as u8 - KIND_52));
        self.kinds[kind][by] += 1;
        if kind == 0 {
            return;
        }
        self.temperatures[kind - 1][usize::from(site.temperature)][by] += 1;
        let mild = Site {
            temperature: EIGHT_DEGREES,
            ..*site
        };
        // At 8 °C a site of kind 55 may be refused by 21.
        let terms = [site, &mild].map(|site| forest::terms(site, list));
        let [Ok(own_terms), Ok(mild_terms)] = terms else {
            return;
        };
        let once = mild_terms.weathering * temperature_factor(site) / 1000;
        self.rounded_once += u64::from(own_terms.weathering != once);
        let is_within = |site| judge(site, list).expect("a judged site").verdict == Verdict::Within;
        let [within, mild_within] = [site, &mild].map(is_within);
        self.within_by_t += u64::from(within && !mild_within);
        self.over_by_t += u64::from(mild_within && !within);
    }

    /// The answer of check, loads, level, judge or sample, by their number, to a site value with its list.
    pub fn value(&mut self, call: usize, value: &[u8], list: &[u8], result: u64) {
        let row = match (result >> 32, value.len()) {
            (0, 50) => 0,
            (0, 51) => 1,
            (0, 55) => 2,
            (0, 57) => 3,
            (7, 49) => 4,
            (7, 52) => 5,
            (7, 54) => 6,
            (7, 56) => 7,
            (7, 58) => 8,
            (7, 50 | 51 | 55 | 57) => match (value[8], value[32]) {
                (0, _) => 10,
                (1..=8, 5) => 11,
                (1..=8, 255) => 12,
                _ => return,
            },
            (7, _) => 9,
            (8, 51) if too_hot_alone(value, list) => 13,
            (8, 55) if too_hot_alone(value, list) => 14,
            (8, 57) if too_hot_alone(value, list) => 15,
            (8, 57) if is_mended(value, list, 55, &[0, 0]) => 16,
            _ => return,
        };
        self.values[row][call] += 1;
    }

    /// Accepted records and judged site values, by rewrite, list, convert and judge, each with whether it is due.
    pub fn accepted_rows(&self) -> Vec<(String, [(u64, bool); 4])> {
        let due = |kind: u8, counts: [u64; 4]| {
            let is_due = |by: usize| by != By::Convert as usize || kind != KIND_55;
            std::array::from_fn(|by| (counts[by], is_due(by)))
        };
        let mut rows = Vec::new();
        for (kind, counts) in (KIND_52..).zip(self.kinds) {
            rows.push((format!("kind {kind:x}"), due(kind, counts)));
        }
        for (kind, temperatures) in (KIND_53..).zip(self.temperatures) {
            for (byte, counts) in temperatures.into_iter().enumerate() {
                let name = format!("kind {kind:x}, temperature {byte}");
                rows.push((name, due(kind, counts)));
            }
        }
        rows
    }

    /// Refusals of records, by rewrite, list and convert, each with whether it is due.
    pub fn refusal_rows(&self) -> Vec<(String, [(u64, bool); 3])> {
        let row = |((name, due), counts): ((&str, [bool; 3]), [u64; 3])| {
            let column = |by: usize| (counts[by], due[by]);
            (name.to_string(), std::array::from_fn(column))
        };
        let counts = self.refusals.into_iter().chain(self.refusals_55);
        rows_of_refusals().zip(counts).map(row).collect()
    }

    /// Answers to site values, by check, loads, level, judge and sample.
    pub fn value_rows(&self) -> Vec<(String, [u64; 5])> {
        let names = VALUES.map(str::to_string);
        names.into_iter().zip(self.values).collect()
    }

    /// Files of several records.
    pub fn files(&self) -> Vec<(String, u64)> {
        let names = FILES.map(str::to_string);
        names.into_iter().zip(self.files).collect()
    }

    /// Judged sites of kinds 53, 54 and 55.
    pub fn judged_rows(&self) -> Vec<(String, u64)> {
        let sites = [
            ("W, rounded once", self.rounded_once),
            ("within by temperature", self.within_by_t),
            ("over by temperature", self.over_by_t),
        ];
        sites.map(|(name, count)| (name.to_string(), count)).into()
    }
}

/// The rows of refusals, and whether each is due by rewrite, list and convert.
fn rows_of_refusals() -> impl Iterator<Item = (&'static str, [bool; 3])> {
    let of_all = REFUSALS.map(|name| (name, [true, true, true]));
    let of_55 = REFUSALS_55.map(|name| (name, [true, true, false]));
    of_all.into_iter().chain(of_55)
}

/// Where the field that starts here, outer or inner, ends.
pub fn end_of(bytes: &[u8], at: usize) -> usize {
    at + 3 + usize::from(u16::from_be_bytes([bytes[at + 1], bytes[at + 2]]))
}

/// The fields, outer or inner, that follow one another from a place on and start ahead of an end, each with where it starts.
pub fn fields_in(
    bytes: &[u8],
    start: usize,
    end: usize,
) -> impl Iterator<Item = (usize, &[u8])> + '_ {
    let mut at = start;
    std::iter::from_fn(move || {
        let start = at;
        if start >= end {
            return None;
        }
        at = end_of(bytes, start);
        Some((start, &bytes[start..at]))
    })
}

/// The row of an accepted file, where it has several records.
pub fn files_row(file: &[u8]) -> Option<usize> {
    let kinds: Vec<u8> = fields_in(file, 0, file.len())
        .map(|(_, record)| record[0] - KIND_52)
        .collect();
    let which = kinds.iter().fold(0, |which, kind| which | 1 << kind);
    (kinds.len() > 1).then(|| which - 1)
}

/// The row of a refusal, where there is one.
fn refusal(file: &[u8], rule: u64, offset: usize) -> Option<&'static str> {
    if rule == 3 {
        return Some(match file[offset] {
            0x51 => "3 at tag 51",
            0x56 => "3 at tag 56",
            // That of a conversion stands with the others there.
            KIND_55 => return None,
            _ => "3 at another tag",
        });
    }
    if !(5..=8).contains(&rule) {
        return None;
    }
    let (tag, fields, rest) = fault(file, offset);
    Some(match (tag, fields.len(), rule, rest) {
        (KIND_52, 15, 6, [0x10, 0, 1, 0..=25]) => "6 after 0F, field 10",
        (KIND_53, 15, 5, _) => "53: 5 at field 10",
        (KIND_53, 15, 6, []) => "53: 6 at the end, no 10",
        (KIND_53, 15, 6, _) => "53: 6 for field 10",
        (KIND_53, 15, 7, _) => "53: 7 at field 10",
        (KIND_53, 15, 8, _) => "53: 8 at field 10",
        (KIND_53, 16, 6, _) => "53: 6 after field 10",
        (KIND_54, 15, 5, _) => "54: 5 at field 10",
        (KIND_54, 15, 6, []) => "54: 6 at the end, no 10",
        (KIND_54, 15, 6, _) => "54: 6 for field 10",
        (KIND_54, 15, 7, _) => "54: 7 at field 10",
        (KIND_54, 15, 8, _) => "54: 8 at field 10",
        (KIND_54, 16, 6, [0x11, 0, 2, ..]) => "6 after 10, field 11",
        (KIND_54, 16, 6, _) => "54: 6 after field 10",
        (KIND_55, 15, 5, _) => "55: 5 at field 10",
        (KIND_55, 15, 6, []) => "55: 6 at the end, no 10",
        (KIND_55, 15, 6, _) => "55: 6 for field 10",
        (KIND_55, 15, 7, _) => "55: 7 at field 10",
        (KIND_55, 15, 8, _) => "55: 8 at field 10",
        (KIND_55, 16, 5, _) => "55: 5 at field 11",
        (KIND_55, 16, 6, []) => "55: 6 at the end, no 11",
        (KIND_55, 16, 6, _) => "55: 6 for field 11",
        (KIND_55, 16, 7, _) => "55: 7 at field 11",
        (KIND_55, 16, 8, [_, 0, 2, 0x13, 0x89, ..]) => "55: 8 at 11, by 5001",
        (KIND_55, 16, 8, _) => "55: 8 at field 11",
        (KIND_55, 17, 6, _) => "55: 6 after field 11",
        (KIND_52, 6, 7, [_, 0, 5 | 10 | 15, ..]) => "52: 7, stand of fives",
        (KIND_53, 6, 7, [_, 0, 5 | 10 | 15, ..]) => "53: 7, stand of fives",
        (KIND_54, 6, 7, [_, 0, 4 | 8 | 12 | 16, ..]) => "54: 7, stand of fours",
        (KIND_52, 6, 7, [_, 0, 20, ..]) => "52: 7, five entries",
        (KIND_53, 6, 7, [_, 0, 20, ..]) => "53: 7, five entries",
        (KIND_54, 6, 7, [_, 0, 25, ..]) => "54: 7, five entries",
        (KIND_55, 6, 7, [_, 0, 4 | 8 | 12 | 16, ..]) => "55: 7, stand of fours",
        (KIND_55, 6, 7, [_, 0, 25, ..]) => "55: 7, five entries",
        (KIND_55, 6, 7, _) => "55: 7, another length",
        (KIND_52, 6, 7, _) => "52: 7, another length",
        (KIND_53, 6, 7, _) => "53: 7, another length",
        (KIND_54, 6, 7, _) => "54: 7, another length",
        (_, 0, 7, [_, 0, 0, ..]) => "7, name of no bytes",
        _ => return None,
    })
}

/// The record that is refused at an offset within it or at its end: its outer tag, the fields that stand before the offset,
/// and its bytes from there.
pub fn fault(file: &[u8], offset: usize) -> (u8, Vec<&[u8]>, &[u8]) {
    let (start, record) = fields_in(file, 0, offset)
        .last()
        .expect("a record that starts ahead of it");
    let fields = fields_in(file, start + 3, offset).map(|(_, field)| field);
    (
        record[0],
        fields.collect(),
        &file[offset..start + record.len()],
    )
}

/// How many entries the stand of an accepted record has.
pub fn entries_of(record: &[u8]) -> usize {
    let (_, stand) = fields_in(record, 3, record.len()).nth(6).expect("field 07");
    stand_in(stand, record[0] >= KIND_54).len()
}

/// The entries of a field 07, with one byte for a species or with two.
pub fn stand_in(field: &[u8], two: bool) -> Vec<Entry> {
    let length = usize::from(field[2]);
    let entries = field[3..3 + length].chunks_exact(if two { 5 } else { 4 });
    let entry = |bytes: &[u8]| {
        let (species, rest) = bytes.split_at(bytes.len() - 3);
        Entry {
            species: species
                .iter()
                .fold(0, |high, &low| 256 * high + u16::from(low)),
            share: rest[0],
            growth: u16::from_be_bytes([rest[1], rest[2]]),
        }
    };
    entries.map(entry).collect()
}

/// Whether the temperature of a site value of 51 bytes or more is its only fault.
fn too_hot_alone(value: &[u8], list: &[u8]) -> bool {
    is_mended(value, list, 50, &[EIGHT_DEGREES])
}

/// Whether a site value of a length that is permitted is refused, and passes with these bytes at a place.
pub fn is_mended(value: &[u8], list: &[u8], at: usize, bytes: &[u8]) -> bool {
    let mut mended = value.to_vec();
    mended[at..at + bytes.len()].copy_from_slice(bytes);
    let passes = |value: &[u8]| {
        Site::from_bytes(value)
            .and_then(|site| forest::check(&site, list))
            .is_ok()
    };
    !passes(value) && passes(&mended)
}
