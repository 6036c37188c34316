//! Times the listing of full files, the conversion of one, and the rewriting of its records, by the static library and by the
//! independent implementation.

use compare::interface::{CONVERT, LIST, REWRITE};
use compare::random::Random;
use compare::{files, lists, sites};
use forest::{terms, Kind, Site};
use std::hint::black_box;
use std::time::Instant;

const SEED: u64 = 20240611;
const RECORDS: usize = 500;
const BATCHES: usize = 2000;
/// Calls in one batch.
const REPEATS: usize = 8;

fn main() {
    let mut random = Random::new(SEED);
    let any = |_: &Site| true;
    time_listing(
        "kind 52 with four entries, an empty list",
        &full_file(&mut random, Kind::Tag52, &[], any),
        &[],
    );
    println!();
    let list = lists::all(&mut random);
    let listed = |site: &Site| site.stand[0].species > 8;
    time_listing(
        "kind 54 with four entries of a list, the list of 768 entries",
        &full_file(&mut random, Kind::Tag54, &list, listed),
        &list,
    );
    println!();
    let file = full_file(&mut random, Kind::Tag53, &[], any).0;
    time_conversion(
        "kind 53 with four entries, to kind 54 and back, an empty list",
        &file,
    );
    println!();
    time_rewriting(
        "kind 53 with four entries, each rewritten, an empty list",
        &file,
    );
    println!();
    time_listing(
        "kind 55 with four entries of a list, the list of 768 entries",
        &full_file(&mut random, Kind::Tag55, &list, listed),
        &list,
    );
}

/// Prints the times of the listing by both, for a file of records of some kind, lent with a list.
fn time_listing(records: &str, (file, hydrogen_bound): &(Vec<u8>, usize), list: &[u8]) {
    let (mut ours, mut theirs) = (vec![0; 64_000], vec![0; 64_000]);
    let length = (LIST.reference)([file, list], &mut ours);
    assert_eq!(
        (LIST.library)([file, list], &mut theirs),
        length,
        "the results differ"
    );
    assert_eq!(length >> 32, 0, "the file is refused");
    assert!(ours == theirs, "the listings differ");
    println!(
        "{RECORDS} records of {records}, {} bytes, {hydrogen_bound} hydrogen-bound, {} aluminium-bound",
        file.len(),
        RECORDS - hydrogen_bound
    );
    let [library, reference] = black_box([LIST.library, LIST.reference]);
    time(
        || library(black_box([file, list]), &mut theirs),
        || reference(black_box([file, list]), &mut ours),
    );
}

/// Prints the times of both, for a file of kind 53 moved to kind 54 and back again.
fn time_conversion(records: &str, file: &[u8]) {
    let [library, reference] = black_box([CONVERT.library, CONVERT.reference]);
    let [mut ours, mut theirs] = [(); 2].map(|()| [vec![0; 64_000], vec![0; 64_000]]);
    for (convert, room) in [(library, &mut theirs), (reference, &mut ours)] {
        let length = there_and_back(convert, file, room) as usize;
        assert!(room[1][..length] == *file, "another file comes back");
    }
    println!("{RECORDS} records of {records}, {} bytes", file.len());
    time(
        || there_and_back(library, black_box(file), &mut theirs),
        || there_and_back(reference, black_box(file), &mut ours),
    );
}

fn there_and_back(
    convert: fn([&[u8]; 3], &mut [u8]) -> u64,
    file: &[u8],
    [wide, narrow]: &mut [Vec<u8>; 2],
) -> u64 {
    let length = convert([file, &[], &[Kind::Tag54 as u8]], wide) as usize;
    convert([&wide[..length], &[], &[Kind::Tag53 as u8]], narrow)
}

/// Prints the times of both, for the records of a file, read and written again one by one.
fn time_rewriting(records: &str, file: &[u8]) {
    let [library, reference] = black_box([REWRITE.library, REWRITE.reference]);
    let [mut ours, mut theirs] = [(); 2].map(|()| vec![0; 300]);
    let each = |rewrite: fn([&[u8]; 2], &mut [u8]) -> u64, room: &mut [u8]| {
        let (mut at, mut same) = (0, 0);
        while at < file.len() {
            let end = at + 3 + usize::from(u16::from_be_bytes([file[at + 1], file[at + 2]]));
            let record = black_box(&file[at..end]);
            let length = rewrite([record, &[]], room) as usize;
            same += u64::from(length == record.len() && room[..length] == *record);
            at = end;
        }
        assert_eq!(same, RECORDS as u64, "another record comes back");
        same
    };
    println!("{RECORDS} records of {records}, {} bytes", file.len());
    time(
        || each(library, &mut theirs),
        || each(reference, &mut ours),
    );
}

/// Prints the times of two calls that are made in turn, and their ratio.
fn time(mut library: impl FnMut() -> u64, mut reference: impl FnMut() -> u64) {
    let time = |call: &mut dyn FnMut() -> u64| {
        let start = Instant::now();
        for _ in 0..REPEATS {
            black_box(call());
        }
        start.elapsed().as_nanos() as f64 / (REPEATS * RECORDS) as f64
    };
    let (mut of_library, mut of_reference) = (Vec::new(), Vec::new());
    for _ in 0..BATCHES {
        of_library.push(time(&mut library));
        of_reference.push(time(&mut reference));
    }
    let (library, reference) = (Times::of(of_library), Times::of(of_reference));
    println!("{:<16}{:>10}{:>10}", "ns a record", "median", "least");
    println!(
        "{:<16}{:>10.1}{:>10.1}",
        "library", library.median, library.least
    );
    println!(
        "{:<16}{:>10.1}{:>10.1}",
        "reference", reference.median, reference.least
    );
    println!(
        "{:<16}{:>10.2}{:>10.2}",
        "ratio",
        library.median / reference.median,
        library.least / reference.least
    );
}

/// Time per record over all batches.
struct Times {
    median: f64,
    least: f64,
}

impl Times {
    fn of(mut batches: Vec<f64>) -> Times {
        batches.sort_by(f64::total_cmp);
        Times {
            median: batches[batches.len() / 2],
            least: batches[0],
        }
    }
}

/// A file of records of a kind, each with such a site of four entries, and how many of the sites are hydrogen-bound: half of
/// them, at random places.
fn full_file(
    random: &mut Random,
    kind: Kind,
    list: &[u8],
    such: impl Fn(&Site) -> bool,
) -> (Vec<u8>, usize) {
    let (mut file, mut hydrogen_bound) = (Vec::new(), 0);
    for _ in 0..RECORDS {
        let wanted = random.one_in(2);
        let site = loop {
            let site = sites::good_of(random, kind, 4, list);
            let level = terms(&site, list).expect("a good site").level;
            if such(&site) && (level == i64::from(site.hydrogen_ceiling)) == wanted {
                break site;
            }
        };
        hydrogen_bound += usize::from(wanted);
        file.extend(files::record_of(&site));
    }
    (file, hydrogen_bound)
}
