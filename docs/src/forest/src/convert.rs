use crate::listing::MOST_RECORDS;
use crate::record::{each_record, push_record};
use crate::refusal::{lend, Refusal, Rule};
use crate::site::{Kind, Site, EIGHT_DEGREES};

/// Writes the records of a file, all of them moved to the kind with the outer tag `target`. Neither they nor the target are of
/// kind 55.
pub fn convert(file: &[u8], list: &[u8], target: u8, out: &mut [u8]) -> Result<usize, Refusal> {
    let kind = Kind::of_tag(target, Kind::MOVED).ok_or(Rule::OuterTag.at(0))?;
    let mut moved = Vec::with_capacity(file.len());
    let mut first_misfit = None;
    each_record(file, list, MOST_RECORDS, Kind::MOVED, |start, site, _| {
        if first_misfit.is_none() {
            first_misfit = misfit(site, kind).map(|tag| field_at(file, start, tag));
        }
        push_record(&mut moved, &Site { kind, ..*site });
    })?;
    match first_misfit {
        Some(at) => Err(Rule::Misfit.at(at)),
        None => lend(&moved, out),
    }
}

/// The tag of the first field of a site whose value a kind cannot hold. A site of kind 52 was read as one at 8 °C, and above 255
/// there are species in kind 54 alone.
fn misfit(site: &Site, kind: Kind) -> Option<u8> {
    let above_255 = site.stand().iter().any(|entry| entry.species > 255);
    if above_255 && kind != Kind::Tag54 {
        Some(0x07)
    } else if site.temperature != EIGHT_DEGREES && kind == Kind::Tag52 {
        Some(0x10)
    } else {
        None
    }
}

/// Where the field with a tag stands in a record that passes and starts here: its fields are 01, 02 and so on.
fn field_at(file: &[u8], start: usize, tag: u8) -> usize {
    (0x01..tag).fold(start + 3, |at, _| {
        at + 3 + usize::from(u16::from_be_bytes([file[at + 1], file[at + 2]]))
    })
}
