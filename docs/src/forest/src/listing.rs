use crate::judgement::{judge_checked, Judgement};
use crate::record::each_record;
use crate::refusal::{lend, Refusal};
use crate::site::Kind;

pub(crate) const MOST_RECORDS: usize = 500;
pub(crate) const HEADER: &str = "id maxS minN maxN nutN region acidEx nutEx verdict";

/// Writes the listing of a file of records.
pub fn list(file: &[u8], list: &[u8], out: &mut [u8]) -> Result<usize, Refusal> {
    lend(&listing(file, list)?, out)
}

/// Writes what the program prints for a file: the listing, or the line of its refusal.
pub fn report(file: &[u8], list: &[u8], out: &mut [u8]) -> Result<usize, Refusal> {
    match listing(file, list) {
        Ok(lines) => lend(&lines, out),
        Err(refusal) => lend(format!("{refusal}\n").as_bytes(), out),
    }
}

fn listing(file: &[u8], list: &[u8]) -> Result<Vec<u8>, Refusal> {
    let mut lines = Vec::with_capacity(HEADER.len() + 1 + file.len());
    lines.extend_from_slice(HEADER.as_bytes());
    lines.push(b'\n');
    each_record(file, list, MOST_RECORDS, Kind::ALL, |_, site, contents| {
        push_line(&mut lines, site.name(), &judge_checked(site, contents))
    })?;
    Ok(lines)
}

fn push_line(lines: &mut Vec<u8>, name: &[u8], judgement: &Judgement) {
    lines.extend_from_slice(name);
    for number in judgement.numbers() {
        push_number(lines, number);
    }
    lines.push(b' ');
    lines.extend_from_slice(judgement.mark().as_bytes());
    lines.push(b'\n');
}

/// A space, then the number in decimal.
fn push_number(lines: &mut Vec<u8>, number: i64) {
    let mut digits = [0; 20];
    let mut first = digits.len();
    let mut rest = number.unsigned_abs();
    loop {
        first -= 1;
        digits[first] = b'0' + (rest % 10) as u8;
        rest /= 10;
        if rest == 0 {
            break;
        }
    }
    first -= 1;
    digits[first] = b' ';
    lines.extend_from_slice(&digits[first..]);
}
