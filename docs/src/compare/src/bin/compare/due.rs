//! Rows of counts by source, and the sources for which they are due.

use crate::tally::{Source, SOURCES};
use Source::{Check, Judge, Level, Loads, Program, Report, Sample, To52, To53, To54};

pub type BySource<T = u64> = [T; SOURCES.len()];

pub const ALL: BySource<bool> = [true; SOURCES.len()];
/// A conversion takes no record of kind 55.
pub const NOT_MOVED: BySource<bool> = but(&[To52, To53, To54]);
/// The check takes no buffer, that of the program is long enough, and a report's may be too short for the line of a refusal.
pub const INTO_BUFFERS: BySource<bool> = but(&[Report, Check, Program]);
pub const VALUES: BySource<bool> = due(&[Check, Loads, Level, Judge, Sample]);

pub const fn due(sources: &[Source]) -> BySource<bool> {
    set(sources, [false; SOURCES.len()], true)
}

pub const fn but(sources: &[Source]) -> BySource<bool> {
    set(sources, ALL, false)
}

const fn set(sources: &[Source], mut due: BySource<bool>, is_due: bool) -> BySource<bool> {
    let mut index = 0;
    while index < sources.len() {
        due[sources[index] as usize] = is_due;
        index += 1;
    }
    due
}

/// The rows with their counts, each with whether it is due.
pub fn rows(
    rows: &[(&str, BySource<bool>)],
    counts: &[BySource],
    with_program: bool,
) -> Vec<(String, BySource<(u64, bool)>)> {
    let row = |(&(name, mut due), counts): (&(&str, BySource<bool>), &BySource)| {
        due[Program as usize] &= with_program;
        let column = |column: usize| (counts[column], due[column]);
        (name.to_string(), std::array::from_fn(column))
    };
    rows.iter().zip(counts).map(row).collect()
}
