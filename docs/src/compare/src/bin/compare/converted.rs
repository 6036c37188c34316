//! How often records of each kind were moved to each, and each refusal by the fault that stands behind it.

use crate::kinds::{
    entries_of, fields_in, files_row, stand_in, FILES, KIND_52, KIND_53, KIND_54, KIND_55, MOVABLE,
};
use forest::EIGHT_DEGREES;

/// By target: 52, 53 and 54.
type ByTarget<T = u64> = [T; 3];

/// The targets for which a row is due.
const ALL: ByTarget<bool> = [true, true, true];
const DOWN: ByTarget<bool> = [true, true, false];
const TO_52: ByTarget<bool> = [true, false, false];

/// Records and files moved, and files that can be.
const MOVED: [(&str, ByTarget<bool>); 16] = [
    ("kind 52", ALL),
    ("kind 53", ALL),
    ("kind 54", ALL),
    ("not at 8 °C", [false, true, true]),
    ("of a listed species", [false, false, true]),
    ("reserve, not at 8 °C", [false, true, true]),
    ("500 records", ALL),
    ("in the exact room", ALL),
    ("with room to spare", ALL),
    ("11: a byte less", ALL),
    ("11: no room", ALL),
    ("the same listing", ALL),
    ("52 there and back", ALL),
    ("53 there and back", ALL),
    ("54 there and back", ALL),
    ("reserve, and back", ALL),
];

/// 17, by its record and field, and by what stands behind it; then other faults of the file behind a field that 17 would be
/// given for, which is in another record, in the same one, or the one at fault.
const REFUSED: [(&str, ByTarget<bool>); 23] = [
    ("17: 53, field 10", TO_52),
    ("17: 54, field 07", DOWN),
    ("17: 54, field 10", TO_52),
    ("17: 07, and 10 too", TO_52),
    ("17: 10, then a 07", TO_52),
    ("17: a later record", DOWN),
    ("17: the 500th record", DOWN),
    ("17: 53, a reserve", TO_52),
    ("17: 54, a reserve", TO_52),
    ("17: after a reserve", DOWN),
    ("17 ahead of 11", DOWN),
    ("2 ahead of 17", DOWN),
    ("3 ahead of 17", DOWN),
    ("4 ahead of 17", DOWN),
    ("5 ahead of 17", DOWN),
    ("6 ahead of 17", DOWN),
    ("7 ahead of 17", DOWN),
    ("8 ahead of 17", DOWN),
    ("9 ahead of 17", DOWN),
    ("10 ahead of 17", DOWN),
    ("16 ahead of 17", DOWN),
    ("behind 17, one record", DOWN),
    ("16, and 17 there too", DOWN),
];

/// 3 by a record of kind 55, at its place in the file, by what stands ahead of it and by what is at fault in it.
const NEAR_NEUTRAL: [(&str, ByTarget<bool>); 9] = [
    ("3: 55, the first", ALL),
    ("3: 55, a later record", ALL),
    ("3: 55, the 500th record", ALL),
    ("3: 55, no fault in it", ALL),
    ("3: 55, ahead of 17", DOWN),
    ("3: 55, ahead of 21", ALL),
    ("3: 55, ahead of 2", ALL),
    ("3: 55, a fault in it", ALL),
    ("3: 55, ahead of 11", ALL),
];

/// 3 by a target other than the three, and what stands behind it by rule, 0 being no other fault.
const OTHERS: [&str; 4] = [
    "3: target 51",
    "3: target 55",
    "3: another target",
    "3: target 55, file too",
];
const BEHIND_OTHERS: [usize; 15] = [0, 1, 2, 3, 4, 5, 6, 7, 8, 9, 10, 11, 15, 16, 17];

#[derive(Default)]
pub struct Converted {
    moved: [ByTarget; MOVED.len()],
    /// Files moved, of several records.
    files: [ByTarget; MOVABLE],
    refused: [ByTarget; REFUSED.len()],
    near_neutral: [ByTarget; NEAR_NEUTRAL.len()],
    others: [u64; OTHERS.len()],
    behind_others: [u64; 18],
}

impl Converted {
    /// A file that was moved.
    pub fn moved(&mut self, file: &[u8], target: u8) {
        let (mut kinds, mut not_mild, mut listed, mut reserves) = ([0; 3], 0, 0, 0);
        for (start, record) in fields_in(file, 0, file.len()) {
            kinds[column(record[0])] += 1;
            for (_, field) in fields_in(file, start + 3, start + record.len()) {
                not_mild += u64::from(is_not_mild(field));
                reserves += u64::from(is_not_mild(field) && entries_of(record) == 0);
                listed += u64::from(is_listed(record[0], field));
            }
        }
        self.add("kind 52", target, kinds[0]);
        self.add("kind 53", target, kinds[1]);
        self.add("kind 54", target, kinds[2]);
        self.add("not at 8 °C", target, not_mild);
        self.add("of a listed species", target, listed);
        self.add("reserve, not at 8 °C", target, reserves);
        let is_full = kinds.iter().sum::<u64>() == 500;
        self.add("500 records", target, is_full.into());
        if let Some(row) = files_row(file) {
            self.files[row][column(target)] += 1;
        }
    }

    /// A file whose listing stayed the same when it was moved.
    pub fn same_listing(&mut self, target: u8) {
        self.add("the same listing", target, 1);
    }

    /// A file of one kind that was moved, and back again.
    pub fn back_again(&mut self, file: &[u8], kind: u8, target: u8) {
        let reserves = fields_in(file, 0, file.len()).filter(|(_, record)| entries_of(record) == 0);
        self.add("reserve, and back", target, reserves.count() as u64);
        let name = match kind {
            KIND_52 => "52 there and back",
            KIND_53 => "53 there and back",
            _ => "54 there and back",
        };
        self.add(name, target, 1);
    }

    /// The result for a file with its list in a buffer of so many bytes, and the one in a buffer with room.
    pub fn answer(
        &mut self,
        file: &[u8],
        list: &[u8],
        target: u8,
        room: usize,
        result: u64,
        full: u64,
    ) {
        let offset = result as u32 as usize;
        match result >> 32 {
            0 if room == full as usize => self.add("in the exact room", target, 1),
            0 => self.add("with room to spare", target, 1),
            11 if room == 0 => self.add("11: no room", target, 1),
            11 if room + 1 == full as usize => self.add("11: a byte less", target, 1),
            17 => {
                self.refused(file, target, offset);
                let is_short = room < moved_length(file, target);
                self.add("17 ahead of 11", target, is_short.into());
            }
            rule @ (2..=10 | 16) => {
                self.own_fault(file, target, rule, offset);
                if rule == 3 && file[offset] == KIND_55 {
                    self.near_neutral(file, list, target, room, offset);
                }
            }
            _ => {}
        }
    }

    /// 3 for the record of kind 55 at an offset.
    fn near_neutral(&mut self, file: &[u8], list: &[u8], target: u8, room: usize, offset: usize) {
        let mut add = |name, holds: bool| self.add(name, target, holds.into());
        let before = fields_in(file, 0, offset).count();
        add("3: 55, the first", before == 0);
        add("3: 55, a later record", before > 0);
        add("3: 55, the 500th record", before == 499);
        let stuck = !misfits(file, target, offset).is_empty();
        add("3: 55, ahead of 17", stuck);
        // What the record itself is refused by, where there is no conversion.
        let length = usize::from(u16::from_be_bytes([file[offset + 1], file[offset + 2]]));
        let single = file[offset..].get(..3 + length);
        let fault = single.map(|record| forest::read_record(record, list));
        let rule = fault.map_or(2, |read| {
            read.map_or_else(|refusal| refusal.rule as u8, |_| 0)
        });
        add("3: 55, no fault in it", rule == 0 && !stuck);
        add("3: 55, ahead of 21", rule == 21);
        add("3: 55, ahead of 2", rule == 2);
        add("3: 55, a fault in it", (5..=10).contains(&rule));
        add("3: 55, ahead of 11", room == 0);
    }

    /// 17 for the field at an offset.
    fn refused(&mut self, file: &[u8], target: u8, offset: usize) {
        let misfits = misfits(file, target, file.len());
        let (first, rest) = misfits.split_first().expect("a field that 17 is given for");
        assert_eq!(first.at, offset, "the first such field");
        let mut add = |name, holds: bool| self.add(name, target, holds.into());
        add("17: 53, field 10", first.kind == KIND_53);
        add("17: 54, field 07", first.tag == 0x07);
        add(
            "17: 54, field 10",
            first.kind == KIND_54 && first.tag == 0x10,
        );
        let in_record = rest.iter().any(|other| other.record == first.record);
        add("17: 07, and 10 too", in_record);
        let a_07 = rest.iter().any(|other| other.tag == 0x07);
        add("17: 10, then a 07", first.tag == 0x10 && a_07);
        add("17: a later record", first.record > 0);
        add("17: the 500th record", first.record == 499);
        let entries: Vec<usize> = fields_in(file, 0, offset)
            .map(|(_, record)| entries_of(record))
            .collect();
        let (own, before) = entries.split_last().expect("a record ahead of it");
        add("17: 53, a reserve", *own == 0 && first.kind == KIND_53);
        add("17: 54, a reserve", *own == 0 && first.kind == KIND_54);
        add("17: after a reserve", before.contains(&0));
    }

    /// A refusal by a fault of the file at an offset.
    fn own_fault(&mut self, file: &[u8], target: u8, rule: u64, offset: usize) {
        let in_field = rule == 16 && target != KIND_54;
        self.add("16, and 17 there too", target, in_field.into());
        if let Some(last) = misfits(file, target, offset).last() {
            self.add(&format!("{rule} ahead of 17"), target, 1);
            let record = fields_in(file, 0, offset).count() - 1;
            let in_record = matches!(rule, 5..=8) && last.record == record;
            self.add("behind 17, one record", target, in_record.into());
        }
    }

    /// A target other than the three with a file, and the result that another target has in the same buffer.
    pub fn other(&mut self, file: &[u8], target: u8, behind: u64) {
        let row = match target {
            0x51 => 0,
            KIND_55 => 1,
            _ => 2,
        };
        self.others[row] += 1;
        self.others[3] += u64::from(target == KIND_55 && file.first() == Some(&KIND_55));
        self.behind_others[(behind >> 32) as usize] += 1;
    }

    fn add(&mut self, name: &str, target: u8, count: u64) {
        let names = MOVED.iter().chain(&REFUSED).chain(&NEAR_NEUTRAL);
        let counts = self.moved.iter_mut().chain(&mut self.refused);
        let counts = counts.chain(&mut self.near_neutral);
        let row = names.zip(counts).find(|((row, _), _)| *row == name);
        row.expect("a row").1[column(target)] += count;
    }

    /// By target, each with whether it is due.
    pub fn rows(&self) -> Vec<(String, ByTarget<(u64, bool)>)> {
        let moved = MOVED.into_iter().zip(self.moved);
        let files = FILES.map(|name| (name, ALL)).into_iter().zip(self.files);
        let refused = REFUSED.into_iter().zip(self.refused);
        let of_55 = NEAR_NEUTRAL.into_iter().zip(self.near_neutral);
        moved
            .chain(files)
            .chain(refused)
            .chain(of_55)
            .map(|((name, due), counts)| {
                let column = |column: usize| (counts[column], due[column]);
                (name.to_string(), [0, 1, 2].map(column))
            })
            .collect()
    }

    /// Of targets other than the three.
    pub fn other_rows(&self) -> Vec<(String, u64)> {
        let names = OTHERS.map(str::to_string).into_iter();
        let behind = BEHIND_OTHERS.map(|rule| match rule {
            0 => ("3 by target alone".to_string(), self.behind_others[0]),
            _ => (format!("3 ahead of {rule}"), self.behind_others[rule]),
        });
        names.zip(self.others).chain(behind).collect()
    }
}

fn column(tag: u8) -> usize {
    usize::from(tag - KIND_52)
}

/// A field that a record cannot take to a target.
struct Misfit {
    /// Which record of the file, from 0, and its kind.
    record: usize,
    kind: u8,
    tag: u8,
    at: usize,
}

/// Those of a file that start ahead of an end, up to which it has no fault.
fn misfits(file: &[u8], target: u8, end: usize) -> Vec<Misfit> {
    let mut misfits = Vec::new();
    for (index, (start, record)) in fields_in(file, 0, end).enumerate() {
        for (at, field) in fields_in(file, start + 3, end.min(start + record.len())) {
            if is_not_mild(field) && target == KIND_52
                || is_listed(record[0], field) && target != KIND_54
            {
                misfits.push(Misfit {
                    record: index,
                    kind: record[0],
                    tag: field[0],
                    at,
                });
            }
        }
    }
    misfits
}

/// A field 10 of another temperature than 8 °C.
fn is_not_mild(field: &[u8]) -> bool {
    field[0] == 0x10 && field[3] != EIGHT_DEGREES
}

/// A field 07, in a record of a kind, with a species of the list.
fn is_listed(kind: u8, field: &[u8]) -> bool {
    let listed = |field| {
        stand_in(field, true)
            .iter()
            .any(|entry| entry.species > 255)
    };
    field[0] == 0x07 && kind == KIND_54 && listed(field)
}

/// The length of a file whose records are moved, whether they can be or not.
fn moved_length(file: &[u8], target: u8) -> usize {
    let length = |(_, record): (usize, &[u8])| {
        let entries = entries_of(record);
        let bytes =
            |kind: u8| 4 * usize::from(kind != KIND_52) + entries * usize::from(kind == KIND_54);
        record.len() - bytes(record[0]) + bytes(target)
    };
    fields_in(file, 0, file.len()).map(length).sum()
}
