//! One answer held against the other.

use crate::balances::{any_pair_closes, balances_close};
use crate::bicarbonate::near_neutral_in;
use crate::kinds::{fields_in, By};
use crate::reserves::reserve_in;
use crate::species::With;
use crate::tally::{Source, Tally, PAGE};
use compare::interface::{
    Call, CHECK, CONVERT, JUDGE, LEVEL, LIST, LOADS, PAGES, REPORT, REWRITE, SAMPLE,
};
use compare::random::Random;
use compare::sites::TARGETS;
use compare::{lists, sites};
use forest::{Kind, Site};
use std::fmt::LowerHex;
use std::io::Write;
use std::process::{Command, Stdio};
use std::thread;
use std::time::Duration;

/// Longer than any listing, all pages of any file, any file moved to another kind, and any record.
const ROOM: usize = 64_000;
/// The bytes of the shortest record, a reserve of kind 52 with a name of one byte.
const SHORTEST: usize = 73;
/// One in so many reserves, and sites of kind 55, has its balances tried.
const BALANCED: usize = 8;

/// 21 of a site value.
const NEGATIVE: u64 = 21 << 32;

pub struct Comparison {
    pub passed: u64,
    pub failed: u64,
    pub tally: Tally,
    /// A list of all species.
    all: Vec<u8>,
}

impl Comparison {
    pub fn new(random: &mut Random) -> Comparison {
        Comparison {
            passed: 0,
            failed: 0,
            tally: Tally::default(),
            all: lists::all(random),
        }
    }

    /// A file with a list through `forest_list`, `forest_pages`, `forest_report` and `forest_convert`.
    pub fn file(&mut self, random: &mut Random, file: &[u8], list: &[u8]) {
        let mut room = vec![0; ROOM];
        let full = (LIST.reference)([file, list], &mut room);
        let with_all = || (LIST.reference)([file, &self.all], &mut vec![0; ROOM]);
        self.tally
            .species
            .lent(With::File, file, list, full, with_all);
        self.tally.kinds.records(By::List, file, full);
        self.tally.reserves.records(By::List, file, full);
        for length in lengths(random, full) {
            let result = self.call(random, &LIST, [file, list], length);
            self.tally.answer(Source::List, file, list, result);
            self.tally.bicarbonate.room(Source::List, length, result);
            // The header alone is longer.
            if length < 51 {
                let with_all = || (LIST.reference)([file, &self.all], &mut []);
                self.tally.species.short(With::File, result, with_all);
            }
        }
        let listing = match full >> 32 {
            0 => room[..full as usize].to_vec(),
            _ => Vec::new(),
        };
        let records = records(&listing);
        let full = (PAGES.reference)([file, list], &mut room);
        // 60 records have more bytes than a page: a file that may take two gets a buffer of one too.
        let one_page = (file.len() > PAGE).then_some(PAGE);
        for length in lengths(random, full).into_iter().chain(one_page) {
            let result = self.call(random, &PAGES, [file, list], length);
            self.tally.pages(file, list, records, length, result);
            self.tally.bicarbonate.room(Source::Pages, length, result);
            if result == full && full >> 32 == 0 {
                self.tally.page_lines(file, &room[..full as usize]);
            }
        }
        let full = (REPORT.reference)([file, list], &mut room);
        for length in lengths(random, full) {
            let result = self.call(random, &REPORT, [file, list], length);
            if result == full {
                let text = &room[..full as usize];
                self.tally.printed(Source::Report, file, list, text);
            } else {
                self.tally.answer(Source::Report, file, list, result);
            }
        }
        for target in TARGETS {
            self.convert(random, file, list, &listing, target);
        }
        self.other_target(random, file, list);
    }

    /// A file with a list through `forest_convert`. `listing` is its listing, where it has one.
    fn convert(
        &mut self,
        random: &mut Random,
        file: &[u8],
        list: &[u8],
        listing: &[u8],
        target: Kind,
    ) {
        let (source, target) = (Source::to(target), target as u8);
        let inputs = [file, list, &[target]];
        let in_room = |list: &[u8], room: usize| {
            (CONVERT.reference)([file, list, &[target]], &mut vec![0; room])
        };
        let full = in_room(list, ROOM);
        let with_all = || in_room(&self.all, ROOM);
        self.tally
            .species
            .lent(With::Target, file, list, full, with_all);
        self.tally.kinds.records(By::Convert, file, full);
        self.tally.reserves.records(By::Convert, file, full);
        for length in lengths(random, full) {
            let result = self.call(random, &CONVERT, inputs, length);
            self.tally.answer(source, file, list, result);
            let converted = &mut self.tally.converted;
            converted.answer(file, list, target, length, result, full);
            if length < SHORTEST {
                let with_all = || in_room(&self.all, 0);
                self.tally.species.short(With::Target, result, with_all);
            }
        }
        if full >> 32 == 0 {
            self.tally.converted.moved(file, target);
            let (_, moved) = self.outcome(random, &CONVERT, inputs, full as usize);
            self.moved(random, file, list, listing, target, &moved);
        }
    }

    /// What the library made of a file: it has the same listing and, moved back to the one kind of the file, the same bytes.
    fn moved(
        &mut self,
        random: &mut Random,
        file: &[u8],
        list: &[u8],
        listing: &[u8],
        target: u8,
        moved: &[u8],
    ) {
        let (_, lines) = self.outcome(random, &LIST, [moved, list], listing.len());
        self.same("the listing of a file moved", &lines, listing);
        self.tally.converted.same_listing(target);
        if let Some(kind) = only_kind(file) {
            let back = [moved, list, &[kind]];
            let (_, again) = self.outcome(random, &CONVERT, back, file.len());
            self.same("a file moved, and back again", &again, file);
            self.tally.converted.back_again(file, kind, target);
        }
    }

    /// A file with a list and a target other than the three through `forest_convert`.
    fn other_target(&mut self, random: &mut Random, file: &[u8], list: &[u8]) {
        let any = random.byte();
        let target = random.pick(&[0x51, 0x55, 0, 52, 53, 54, 0x4D, 0xFF, any]);
        if TARGETS.iter().any(|&kind| kind as u8 == target) {
            return;
        }
        let length = random.pick(&[0, 100, 2 * file.len()]);
        self.call(random, &CONVERT, [file, list, &[target]], length);
        let another = random.pick(&TARGETS) as u8;
        let behind = (CONVERT.reference)([file, list, &[another]], &mut vec![0; length]);
        self.tally.converted.other(file, target, behind);
    }

    /// A single record with a list through `forest_rewrite`.
    pub fn record(&mut self, random: &mut Random, record: &[u8], list: &[u8]) {
        let full = (REWRITE.reference)([record, list], &mut [0; 109]);
        let with_all = || (REWRITE.reference)([record, &self.all], &mut [0; 109]);
        self.tally
            .species
            .lent(With::Record, record, list, full, with_all);
        self.tally.kinds.records(By::Rewrite, record, full);
        self.tally.reserves.records(By::Rewrite, record, full);
        for length in lengths(random, full) {
            let result = self.call(random, &REWRITE, [record, list], length);
            self.tally.answer(Source::Rewrite, record, list, result);
            self.tally.bicarbonate.room(Source::Rewrite, length, result);
            if length < SHORTEST {
                let with_all = || (REWRITE.reference)([record, &self.all], &mut []);
                self.tally.species.short(With::Record, result, with_all);
            }
        }
    }

    /// A site value with a list through `forest_check`, `forest_loads`, `forest_level` and `forest_judge`.
    pub fn site(&mut self, random: &mut Random, value: &[u8], list: &[u8]) {
        let result = self.call(random, &CHECK, [value, list], 0);
        self.tally.value(Source::Check, value, list, result);
        if let (0 | NEGATIVE, Some(site)) = (result, near_neutral_in(value)) {
            self.pairs(random, &site, list, result == 0);
        }

        let length = random.pick(&[4, 4, 4, 5, 8, 3, 1, 0]);
        let result = self.call(random, &LOADS, [value, list], length);
        self.tally.value(Source::Loads, value, list, result);
        self.tally.bicarbonate.room(Source::Loads, length, result);

        let length = random.pick(&[2, 2, 2, 3, 8, 1, 1, 0]);
        let result = self.call(random, &LEVEL, [value, list], length);
        self.tally.value(Source::Level, value, list, result);
        self.tally.bicarbonate.room(Source::Level, length, result);
        let mut numbers = [0; 2];
        if (LEVEL.reference)([value, list], &mut numbers) == 2 {
            self.tally.compared(value, numbers[1] as usize);
        }

        let length = random.pick(&[8, 8, 8, 9, 12, 7, 4, 0]);
        let (result, judged) = self.outcome(random, &JUDGE, [value, list], length);
        self.tally.value(Source::Judge, value, list, result);
        self.tally.bicarbonate.room(Source::Judge, length, result);
        if let (8, Some(site)) = (result, near_neutral_in(value)) {
            self.near_neutral(random, &site, value, list, &judged[..8]);
        }
        if let (8, Some(reserve)) = (result, reserve_in(value)) {
            self.reserve(random, &reserve, list, &judged[..8]);
        }
        if length < 8 {
            let with_all = || (JUDGE.reference)([value, &self.all], &mut []);
            self.tally.species.short(With::Value, result, with_all);
        }
        let mut numbers = [0; 8];
        let full = (JUDGE.reference)([value, list], &mut numbers);
        let with_all = || (JUDGE.reference)([value, &self.all], &mut [0; 8]);
        self.tally
            .species
            .lent(With::Value, value, list, full, with_all);
        if full == 8 {
            let site = Site::from_bytes(value).expect("a judged site");
            self.tally.judged(&site, list, &numbers);
        }
    }

    /// What the library made of a reserve: the mark is that of the balances, and the numbers are those of a stand that does not
    /// grow.
    fn reserve(&mut self, random: &mut Random, site: &Site, list: &[u8], judged: &[u64]) {
        if random.one_in(BALANCED) {
            let closes = balances_close(site, list);
            self.same("the mark of a reserve", &judged[7..], &[u64::from(!closes)]);
            self.tally.reserves.balanced(site, closes);
        }
        let stand = sites::bytes(&sites::without_growth(random, site, list));
        let (_, numbers) = self.outcome(random, &JUDGE, [&stand, list], 8);
        self.same(
            "a reserve, and a stand that does not grow",
            judged,
            &numbers,
        );
        self.tally.reserves.without_growth(site);
    }

    /// A site of kind 55 that passes, or is refused by 21: it passes exactly where some pair closes.
    fn pairs(&mut self, random: &mut Random, site: &Site, list: &[u8], passes: bool) {
        if random.one_in(BALANCED) {
            let closes = any_pair_closes(site, list);
            let [passes, closes] = [passes, closes].map(u64::from);
            self.same("a site of kind 55, and its pairs", &[passes], &[closes]);
            self.tally.bicarbonate.paired(closes == 1);
        }
    }

    /// What the library made of a site of kind 55: the mark is that of the balances, and without carbon dioxide the numbers are
    /// those of kind 54.
    fn near_neutral(
        &mut self,
        random: &mut Random,
        site: &Site,
        value: &[u8],
        list: &[u8],
        judged: &[u64],
    ) {
        if random.one_in(BALANCED) {
            let closes = balances_close(site, list);
            self.same("the mark of kind 55", &judged[7..], &[u64::from(!closes)]);
            self.tally.bicarbonate.balanced(site, list, closes);
        }
        if site.carbon_dioxide == 0 {
            let (_, numbers) = self.outcome(random, &JUDGE, [&value[..55], list], 8);
            self.same("kind 55 without carbon dioxide", judged, &numbers);
            self.tally.bicarbonate.as_54();
        }
    }

    /// A site value with a list and the months of its sampler through `forest_sample`.
    pub fn sample(&mut self, random: &mut Random, value: &[u8], list: &[u8], months: &[u8]) {
        let length = random.pick(&[10, 10, 10, 11, 14, 9, 8, 2, 0]);
        let result = self.call(random, &SAMPLE, [value, list, months], length);
        self.tally.value(Source::Sample, value, list, result);
        self.tally.bicarbonate.room(Source::Sample, length, result);
        if length < 10 {
            let with_all = || (SAMPLE.reference)([value, &self.all, months], &mut []);
            self.tally.species.short(With::Months, result, with_all);
        }
        let mut numbers = [0; 10];
        let full = (SAMPLE.reference)([value, list, months], &mut numbers);
        let with_all = || (SAMPLE.reference)([value, &self.all, months], &mut [0; 10]);
        self.tally
            .species
            .lent(With::Months, value, list, full, with_all);
        self.tally.sampled(value, list, months, full, &numbers);
    }

    /// Both sides of a call. Returns the reference's result.
    fn call<T: Element, const INPUTS: usize>(
        &mut self,
        random: &mut Random,
        call: &Call<T, INPUTS>,
        inputs: [&[u8]; INPUTS],
        length: usize,
    ) -> u64 {
        self.outcome(random, call, inputs, length).0
    }

    /// Both sides of a call. Inputs and buffer are lent from the middle of random bytes, and all of the bytes around the
    /// buffer are compared too. Returns the reference's result, and the buffer as the library leaves it.
    fn outcome<T: Element, const INPUTS: usize>(
        &mut self,
        random: &mut Random,
        call: &Call<T, INPUTS>,
        inputs: [&[u8]; INPUTS],
        length: usize,
    ) -> (u64, Vec<T>) {
        let before = random.between(1, 16) as usize;
        let mut ours: Vec<T> = T::random(random, before + length + 16);
        let mut theirs = ours.clone();
        let lent = before..before + length;
        let around = inputs.map(|input| {
            let mut around = random.bytes(before + input.len() + 16);
            around[before..before + input.len()].copy_from_slice(input);
            around
        });
        let within = |around: &'_ Vec<u8>| before..around.len() - 16;
        let inputs = around.each_ref().map(|around| &around[within(around)]);
        let library = (call.library)(inputs, &mut theirs[lent.clone()]);
        let reference = (call.reference)(inputs, &mut ours[lent.clone()]);
        if library == reference && theirs == ours {
            self.passed += 1;
        } else {
            self.mismatch(|| {
                println!(
                    "{} with a buffer of {length}, {before} before it",
                    call.name
                );
                for input in inputs {
                    println!("input      {}", hex(input));
                }
                println!(
                    "library    {}\n           {}",
                    answer(library),
                    hex(&theirs)
                );
                println!(
                    "reference  {}\n           {}",
                    answer(reference),
                    hex(&ours)
                );
            });
        }
        (reference, theirs[lent].to_vec())
    }

    /// Bytes or numbers of the library that are known.
    fn same<T: Element>(&mut self, name: &str, elements: &[T], expected: &[T]) {
        if elements == expected {
            self.passed += 1;
        } else {
            self.mismatch(|| {
                println!("{name}");
                println!("library    {}", hex(elements));
                println!("expected   {}", hex(expected));
            });
        }
    }

    /// A file through the program, which lends an empty list: all that it prints. With `pieces` the file is written bit by bit.
    pub fn program(&mut self, random: &mut Random, path: &str, file: &[u8], pieces: bool) {
        let mut room = vec![0; ROOM];
        let length = (REPORT.reference)([file, &[]], &mut room) as usize;
        let expected = &room[..length];
        let pieces = if pieces {
            cut(random, file)
        } else {
            vec![file]
        };
        let (printed, ended) = run(path, &pieces);
        if printed == expected && ended {
            self.passed += 1;
        } else {
            self.mismatch(|| {
                println!("program, {} bytes in {} pieces", file.len(), pieces.len());
                println!("input      {}", hex(file));
                println!(
                    "program    {}{}",
                    hex(&printed),
                    if ended { "" } else { ", killed" }
                );
                println!("reference  {}", hex(expected));
            });
        }
        self.tally.printed(Source::Program, file, &[], expected);
    }

    /// What the program printed, and whether it ended by itself.
    pub fn expect(&mut self, name: &str, printed: &[u8], expected: &[u8], ended: bool) {
        if printed == expected && ended {
            self.passed += 1;
        } else {
            self.mismatch(|| {
                println!("program, {name}");
                println!(
                    "program    {:?}{}",
                    String::from_utf8_lossy(printed),
                    if ended { "" } else { ", killed" }
                );
                println!("expected   {:?}", String::from_utf8_lossy(expected));
            });
        }
    }

    /// Only the first mismatch is shown.
    fn mismatch(&mut self, show: impl FnOnce()) {
        if self.failed == 0 {
            println!("MISMATCH");
            show();
        }
        self.failed += 1;
    }
}

/// How many records a file has by the lines of its listing; 0 where it is refused.
fn records(listing: &[u8]) -> usize {
    let lines = listing.iter().filter(|&&byte| byte == b'\n').count();
    lines.saturating_sub(1)
}

/// The tag of the records of an accepted file, where all have the same.
fn only_kind(file: &[u8]) -> Option<u8> {
    let same = |(_, record): (usize, &[u8])| record[0] == file[0];
    fields_in(file, 0, file.len()).all(same).then(|| file[0])
}

/// Lengths of the buffer to lend: the exact one, and one that is shorter, longer or empty.
fn lengths(random: &mut Random, full: u64) -> [usize; 2] {
    // A refusal needs no room; it must come in whatever buffer.
    let exact = if full >> 32 == 0 {
        full as usize
    } else {
        random.below(200)
    };
    let other = match random.below(8) {
        0 => 0,
        1 => random.between(1, 60) as usize,
        2 => random.below(exact + 1),
        3 => exact + 1,
        4 => exact + random.below(300),
        _ => exact.saturating_sub(1),
    };
    [exact, other]
}

/// What a lent buffer holds.
trait Element: Copy + PartialEq + LowerHex {
    fn random(random: &mut Random, count: usize) -> Vec<Self>;
}

impl Element for u8 {
    fn random(random: &mut Random, count: usize) -> Vec<u8> {
        random.bytes(count)
    }
}

impl Element for u64 {
    fn random(random: &mut Random, count: usize) -> Vec<u64> {
        (0..count).map(|_| random.word()).collect()
    }
}

fn hex<T: LowerHex>(elements: &[T]) -> String {
    let width = 2 * size_of::<T>();
    let words: Vec<String> = elements
        .iter()
        .map(|element| format!("{element:0width$x}"))
        .collect();
    words.join(if width == 2 { "" } else { " " })
}

fn answer(result: u64) -> String {
    match result >> 32 {
        0 => format!("count {result}"),
        rule => format!("refusal {rule} at {}", result as u32),
    }
}

/// Cuts a file into at most some hundred pieces, the first ones of a few bytes.
fn cut<'a>(random: &mut Random, file: &'a [u8]) -> Vec<&'a [u8]> {
    let longest = file.len() / 40 + 2;
    let mut pieces = Vec::new();
    let mut rest = file;
    while !rest.is_empty() {
        let most = if pieces.len() < 20 { 5 } else { longest };
        let length = random.between(1, most as i64) as usize;
        let (piece, after) = rest.split_at(length.min(rest.len()));
        pieces.push(piece);
        rest = after;
    }
    pieces
}

/// Runs the program on the pieces; returns what it printed and whether it ended by itself.
fn run(path: &str, pieces: &[&[u8]]) -> (Vec<u8>, bool) {
    let mut child = Command::new(path)
        .stdin(Stdio::piped())
        .stdout(Stdio::piped())
        .spawn()
        .unwrap_or_else(|error| panic!("{path}: {error}"));
    let mut stdin = child.stdin.take().expect("piped");
    let output = thread::scope(|scope| {
        scope.spawn(move || {
            for piece in pieces {
                // A program that has seen enough may end before the file does.
                if stdin.write_all(piece).and_then(|()| stdin.flush()).is_err() {
                    break;
                }
                if pieces.len() > 1 {
                    thread::sleep(Duration::from_micros(20));
                }
            }
        });
        child.wait_with_output()
    })
    .unwrap_or_else(|error| panic!("{path}: {error}"));
    (output.stdout, output.status.code().is_some())
}
