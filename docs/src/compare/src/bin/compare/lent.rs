//! How often lists of each length were lent, and lists with each kind of fault.

use crate::species::ByInput;
use compare::lists::ENTRY;
use forest::Refusal;

/// Accepted with a list of so many entries.
const LENGTHS: [&str; 5] = [
    "empty list",
    "list of 1",
    "list of 2 to 12",
    "list of 13 to 767",
    "list of 768",
];

/// 15, by what is at fault and where: an order fault is at the second entry, a later one or the last.
const FAULTS: [&str; 24] = [
    "15: below 256, first",
    "15: below 256, middle",
    "15: below 256, last",
    "15: above 1023, first",
    "15: above 1023, middle",
    "15: above 1023, last",
    "15: equal, second",
    "15: equal, middle",
    "15: equal, last",
    "15: falling, second",
    "15: falling, middle",
    "15: falling, last",
    "15: broken, first",
    "15: broken, last",
    "15: 255",
    "15: 1024",
    "15: 0 to 8",
    "15: equal to 256",
    "15: equal to 1023",
    "15: broken after 1023",
    "15: two faults",
    "15: in 768 entries",
    "15: the last of 768",
    "15: a rest after 768",
];

/// A broken entry, by its bytes.
const RESTS: [&str; 9] = [
    "15: rest of 1",
    "15: rest of 2",
    "15: rest of 3",
    "15: rest of 4",
    "15: rest of 5",
    "15: rest of 6",
    "15: rest of 7",
    "15: rest of 8",
    "15: rest of 9",
];

#[derive(Default)]
pub struct Lists {
    /// By what is lent with the list, as the faults.
    accepted: [ByInput; LENGTHS.len()],
    faults: [ByInput; FAULTS.len()],
    rests: [ByInput; RESTS.len()],
}

impl Lists {
    /// A list, with the column of what it was lent with and whether that was accepted.
    pub fn count(&mut self, column: usize, list: &[u8], accepted: bool) {
        if let Err(Refusal { offset, .. }) = forest::check_list(list) {
            if let rest @ 1..ENTRY = list.len() - offset {
                self.rests[rest - 1][column] += 1;
            }
            for name in list_faults(list, offset) {
                let row = FAULTS.iter().position(|&fault| fault == name);
                self.faults[row.expect("a row")][column] += 1;
            }
        } else if accepted {
            let row = match list.len() / ENTRY {
                0 => 0,
                1 => 1,
                2..=12 => 2,
                13..=767 => 3,
                _ => 4,
            };
            self.accepted[row][column] += 1;
        }
    }

    /// By what is lent with a list, all of them due.
    pub fn rows(&self) -> Vec<(String, ByInput<(u64, bool)>)> {
        let names = LENGTHS.iter().chain(&FAULTS).chain(&RESTS);
        let counts = self.accepted.iter().chain(&self.faults).chain(&self.rests);
        names
            .map(|name| name.to_string())
            .zip(counts.map(|counts| counts.map(|count| (count, true))))
            .collect()
    }
}

fn number(entry: &[u8]) -> u16 {
    u16::from_be_bytes([entry[0], entry[1]])
}

/// The rows of a list that is refused at an offset.
fn list_faults(list: &[u8], offset: usize) -> Vec<&'static str> {
    let (index, last) = (offset / ENTRY, (list.len() - 1) / ENTRY);
    let before = offset.checked_sub(ENTRY).map(|at| number(&list[at..]));
    let mut names = Vec::new();
    let rest = &list[offset..];
    if rest.len() < ENTRY {
        names.push(if index == 0 {
            "15: broken, first"
        } else {
            "15: broken, last"
        });
        names.extend((before == Some(1023)).then_some("15: broken after 1023"));
        names.extend((index == 768).then_some("15: a rest after 768"));
        return names;
    }
    let number = number(rest);
    let place = |names: [&'static str; 3], least: usize| match index {
        _ if index == last && last > least => names[2],
        _ if index == least => names[0],
        _ if index == last => names[2],
        _ => names[1],
    };
    names.push(match number {
        0..256 => place(
            [
                "15: below 256, first",
                "15: below 256, middle",
                "15: below 256, last",
            ],
            0,
        ),
        1024.. => place(
            [
                "15: above 1023, first",
                "15: above 1023, middle",
                "15: above 1023, last",
            ],
            0,
        ),
        _ if before == Some(number) => place(
            ["15: equal, second", "15: equal, middle", "15: equal, last"],
            1,
        ),
        _ => place(
            [
                "15: falling, second",
                "15: falling, middle",
                "15: falling, last",
            ],
            1,
        ),
    });
    names.extend(match number {
        255 => Some("15: 255"),
        1024 => Some("15: 1024"),
        0..=8 => Some("15: 0 to 8"),
        256 if before == Some(256) => Some("15: equal to 256"),
        1023 if before == Some(1023) => Some("15: equal to 1023"),
        _ => None,
    });
    // What follows is at fault too.
    names.extend(
        forest::check_list(&rest[ENTRY..])
            .is_err()
            .then_some("15: two faults"),
    );
    if list.len() / ENTRY == 768 {
        names.push("15: in 768 entries");
        names.extend((index == 767).then_some("15: the last of 768"));
    }
    names
}
