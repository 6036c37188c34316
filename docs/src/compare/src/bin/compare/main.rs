//! Compares the static library and the program with the independent implementation, byte for byte.

mod balances;
mod bicarbonate;
mod comparison;
mod converted;
mod due;
mod edges;
mod kinds;
mod lent;
mod reserves;
mod sampled;
mod species;
mod tally;
mod verdicts;

use compare::random::Random;
use compare::{files, lists, months, sites};
use comparison::Comparison;
use std::process::ExitCode;

const USAGE: &str = "compare [--seed N] [--scale X] [--program PATH]";

struct Options {
    seed: u64,
    /// Multiplies the number of inputs.
    scale: f64,
    program: Option<String>,
}

fn options() -> Option<Options> {
    let mut options = Options {
        seed: 20240611,
        scale: 1.0,
        program: None,
    };
    let mut words = std::env::args().skip(1);
    while let Some(word) = words.next() {
        let value = words.next()?;
        match word.as_str() {
            "--seed" => options.seed = value.parse().ok()?,
            "--scale" => options.scale = value.parse().ok()?,
            "--program" => options.program = Some(value),
            _ => return None,
        }
    }
    Some(options)
}

fn main() -> ExitCode {
    let Some(options) = options() else {
        eprintln!("{USAGE}");
        return ExitCode::from(2);
    };
    println!("seed {}, scale {}", options.seed, options.scale);
    let scaled = |count: f64| (count * options.scale) as usize;
    let mut random = Random::new(options.seed);
    let mut comparison = Comparison::new(&mut random);

    let (sites, records, files) = (scaled(1_600_000.0), scaled(650_000.0), scaled(140_000.0));
    let years = scaled(600_000.0);
    for _ in 0..sites {
        let (value, list) = lists::with(&mut random, sites::value);
        comparison.site(&mut random, &value, &list);
    }
    for _ in 0..records {
        let (record, list) = lists::with(&mut random, files::record);
        comparison.record(&mut random, &record, &list);
    }
    for _ in 0..files {
        let (file, list) = lists::with(&mut random, files::file);
        comparison.file(&mut random, &file, &list);
    }
    // Files of the table's species, and of a list's: with the list, with one that lacks all or the last, and with a bad one.
    let all = lists::all(&mut random);
    let (bad, lacking) = (&all[..all.len() - 1], &all[..all.len() - lists::ENTRY]);
    for (held, lent) in [
        (&[][..], &[][..]),
        (&all, &all),
        (&all, &[]),
        (&all, lacking),
        (&all, bad),
    ] {
        for file in files::border_files(&mut random, held) {
            comparison.file(&mut random, &file, lent);
        }
        for file in files::page_border_files(&mut random, held) {
            comparison.file(&mut random, &file, lent);
        }
    }
    for _ in 0..years {
        let ((value, months), list) = lists::with(&mut random, months::sampled_site);
        comparison.sample(&mut random, &value, &list, &months);
    }
    println!("{sites} site values, {records} single records, {files} files, {years} years");

    if let Some(path) = &options.program {
        let runs = scaled(1000.0);
        for index in 0..runs {
            // Most files have species of the table alone.
            let list = match index % 8 {
                0 => lists::good(&mut random),
                _ => Vec::new(),
            };
            let file = match index % 20 {
                0 => files::long_file(&mut random, &list),
                _ => files::file(&mut random, &list),
            };
            comparison.program(&mut random, path, &file, index % 3 == 0);
        }
        for file in files::border_files(&mut random, &[]) {
            comparison.program(&mut random, path, &file, false);
            comparison.program(&mut random, path, &file, true);
        }
        edges::compare(&mut comparison, path);
        println!("{runs} files through the program");
    }

    println!();
    let absent = comparison.tally.print(options.program.is_some());
    if absent > 0 {
        println!("\n{absent} kinds never occurred");
    }
    let failed = comparison.failed + absent;
    println!("\n{} passed, {failed} failed", comparison.passed);
    if failed == 0 {
        ExitCode::SUCCESS
    } else {
        ExitCode::FAILURE
    }
}
