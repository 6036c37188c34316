use crate::judgement::judge_checked;
use crate::listing::{HEADER, MOST_RECORDS};
use crate::record::each_record;
use crate::refusal::{lend, Refusal};
use crate::site::{Kind, Site};
use crate::species::StandContents;
use std::fmt::Write;

/// The lines of a page, less its header.
const SITES_ON_A_PAGE: usize = 59;

#[derive(Clone, Copy)]
enum Aligned {
    Left,
    Right,
}
use Aligned::{Left, Right};

/// Alignment and width of each column.
const COLUMNS: [(Aligned, usize); 9] = [
    // Name.
    (Left, 8),
    // Loads.
    (Right, 8),
    (Right, 8),
    (Right, 8),
    (Right, 8),
    // Region.
    (Right, 2),
    // Exceedances.
    (Right, 7),
    (Right, 7),
    // Verdict.
    (Right, 7),
];

/// Writes the pages of a file of records, one after the other.
pub fn pages(file: &[u8], list: &[u8], out: &mut [u8]) -> Result<usize, Refusal> {
    let mut sites = Vec::new();
    each_record(file, list, MOST_RECORDS, Kind::ALL, |_, site, contents| {
        sites.push(site_line(site, contents))
    })?;
    let header = header_line();
    let page = |sites: &[String]| header.clone() + &sites.concat();
    let pages: String = sites.chunks(SITES_ON_A_PAGE).map(page).collect();
    lend(pages.as_bytes(), out)
}

/// The header's words, each cut to the first letters that its column has room for.
fn header_line() -> String {
    let cut = |(word, (_, width)): (&str, (Aligned, usize))| format!("{word:.width$}");
    line(HEADER.split(' ').zip(COLUMNS).map(cut))
}

fn site_line(site: &Site, contents: &StandContents) -> String {
    let judgement = judge_checked(site, contents);
    let name = String::from_utf8_lossy(site.name()).into_owned();
    let numbers = judgement.numbers().map(|number| number.to_string());
    let mark = judgement.mark().to_string();
    line([name].into_iter().chain(numbers).chain([mark]))
}

/// The words in their columns, and the space that fills the line.
fn line(words: impl Iterator<Item = String>) -> String {
    let mut line = String::with_capacity(65);
    for (word, (aligned, width)) in words.zip(COLUMNS) {
        match aligned {
            Left => write!(line, "{word:<width$}"),
            Right => write!(line, "{word:>width$}"),
        }
        .expect("a string takes all");
    }
    line + " \n"
}
