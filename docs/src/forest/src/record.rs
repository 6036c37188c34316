use crate::refusal::{lend, Refusal, Rule};
use crate::site::{check, check_field, check_load, Entry, Kind, Site, EIGHT_DEGREES};
use crate::species::{SpeciesList, StandContents};

/// The bytes of field 11, which is the last.
const FIELD_11: usize = 5;

/// Reads a single record: a file of at most one.
pub fn read_record(input: &[u8], list: &[u8]) -> Result<Site, Refusal> {
    let mut read = Site::default();
    each_record(input, list, 1, Kind::ALL, |_, site, _| read = *site)?;
    Ok(read)
}

/// Writes the record of a site value, once it passes the checks.
pub fn write_record(site: &Site, list: &[u8], out: &mut [u8]) -> Result<usize, Refusal> {
    check(site, list)?;
    let mut record = Vec::with_capacity(109);
    push_record(&mut record, site);
    lend(&record, out)
}

/// Appends the record of a site that passes the checks.
pub(crate) fn push_record(records: &mut Vec<u8>, site: &Site) {
    let start = records.len();
    records.extend([site.kind as u8, 0, 0]);
    let mut field = |tag: u8, value: &[u8]| {
        records.extend([tag, 0, value.len() as u8]);
        records.extend(value);
    };
    let stand: Vec<u8> = if site.kind.has_wide_species() {
        site.stand().iter().flat_map(five_bytes).collect()
    } else {
        site.stand().iter().flat_map(four_bytes).collect()
    };
    field(0x01, site.name());
    field(0x02, &[site.parent_material]);
    field(0x03, &[site.clay, site.sand]);
    field(0x04, &[site.root_depth]);
    field(0x05, &[site.drainage]);
    field(0x06, &site.percolation.to_be_bytes());
    field(0x07, &stand);
    field(0x08, &site.immobilisation.to_be_bytes());
    field(0x09, &[site.available_share]);
    field(0x0A, &site.base_deposition.to_be_bytes());
    field(0x0B, &site.critical_ratio.to_be_bytes());
    field(0x0C, &site.gibbsite.to_be_bytes());
    field(0x0D, &site.hydrogen_ceiling.to_be_bytes());
    field(0x0E, &site.leachate_nitrogen.to_be_bytes());
    let [[s0, s1], [n0, n1]] = [site.sulphur, site.nitrogen].map(u16::to_be_bytes);
    field(0x0F, &[s0, s1, n0, n1]);
    if site.kind != Kind::Tag52 {
        field(0x10, &[site.temperature]);
    }
    if site.kind == Kind::Tag55 {
        field(0x11, &site.carbon_dioxide.to_be_bytes());
    }
    records[start + 2] = (records.len() - start - 3) as u8;
}

fn five_bytes(entry: &Entry) -> [u8; 5] {
    let [species, growth] = [entry.species, entry.growth].map(u16::to_be_bytes);
    [species[0], species[1], entry.share, growth[0], growth[1]]
}

/// Of a species below 256.
fn four_bytes(entry: &Entry) -> [u8; 4] {
    let [_, rest @ ..] = five_bytes(entry);
    rest
}

/// Reads a single record and writes it again.
pub fn rewrite(record: &[u8], list: &[u8], out: &mut [u8]) -> Result<usize, Refusal> {
    write_record(&read_record(record, list)?, list, out)
}

/// Checks the list, then walks a file of at most `most` records, which are of some `kinds`, from the left, up to its end or its
/// first fault. Each record is taken with the place where it starts.
pub(crate) fn each_record(
    file: &[u8],
    list: &[u8],
    most: usize,
    kinds: &[Kind],
    mut take: impl FnMut(usize, &Site, &StandContents),
) -> Result<(), Refusal> {
    let list = SpeciesList::checked(list)?;
    if file.is_empty() {
        return Err(Rule::NoBytes.at(0));
    }
    let (mut at, mut count) = (0, 0);
    while at < file.len() {
        if count == most {
            return Err(Rule::LeftOver.at(at));
        }
        let &[tag, high, low, ref rest @ ..] = &file[at..] else {
            return Err(Rule::OuterCut.at(at));
        };
        let kind = Kind::of_tag(tag, kinds).ok_or(Rule::OuterTag.at(at))?;
        let length = usize::from(u16::from_be_bytes([high, low]));
        if length > 255 || length > rest.len() {
            return Err(Rule::OuterCut.at(at));
        }
        let (site, contents) = read_fields(kind, &rest[..length], at + 3, list)?;
        take(at, &site, &contents);
        at += 3 + length;
        count += 1;
    }
    Ok(())
}

/// Reads the fields of a record of a kind; `start` is where they begin in the input. Rule 21 comes last, at field 11.
fn read_fields(
    kind: Kind,
    fields: &[u8],
    start: usize,
    list: SpeciesList,
) -> Result<(Site, StandContents), Refusal> {
    let end = start + fields.len();
    let mut site = Site {
        kind,
        temperature: EIGHT_DEGREES,
        ..Site::default()
    };
    let mut contents = StandContents::default();
    let mut rest = fields;
    for due in kind.tags() {
        let at = end - rest.len();
        let (value, after) = read_field(rest, due).map_err(|rule| rule.at(at))?;
        set(&mut site, due, value)
            .and_then(|()| check_field(&site, due, list, &mut contents))
            .map_err(|rule| rule.at(at))?;
        rest = after;
    }
    if !rest.is_empty() {
        return Err(Rule::InnerTag.at(end - rest.len()));
    }
    check_load(&site, &contents).map_err(|rule| rule.at(end - FIELD_11))?;
    Ok((site, contents))
}

/// Splits off the value of the field with the tag that is due.
#[inline(always)]
fn read_field(bytes: &[u8], due: u8) -> Result<(&[u8], &[u8]), Rule> {
    if bytes.is_empty() {
        return Err(Rule::InnerTag);
    }
    let &[tag, high, low, ref rest @ ..] = bytes else {
        return Err(Rule::InnerCut);
    };
    if tag != due {
        return Err(Rule::InnerTag);
    }
    let length = usize::from(u16::from_be_bytes([high, low]));
    rest.split_at_checked(length).ok_or(Rule::InnerCut)
}

/// Enters the value of a field into the site, refusing a length that is not permitted.
#[inline(always)]
fn set(site: &mut Site, tag: u8, value: &[u8]) -> Result<(), Rule> {
    match (tag, value) {
        (0x01, &[_, ..]) if value.len() <= 8 => {
            site.name[..value.len()].copy_from_slice(value);
            site.name_length = value.len() as u8;
        }
        (0x02, &[v]) => site.parent_material = v,
        (0x03, &[clay, sand]) => (site.clay, site.sand) = (clay, sand),
        (0x04, &[v]) => site.root_depth = v,
        (0x05, &[v]) => site.drainage = v,
        (0x06, &[a, b]) => site.percolation = u16::from_be_bytes([a, b]),
        (0x07, _) if site.kind.has_wide_species() => {
            set_stand(site, value, |bytes: [u8; 5]| bytes)?
        }
        (0x07, _) => set_stand(site, value, |[species, rest @ ..]: [u8; 4]| {
            [0, species, rest[0], rest[1], rest[2]]
        })?,
        (0x08, &[a, b]) => site.immobilisation = u16::from_be_bytes([a, b]),
        (0x09, &[v]) => site.available_share = v,
        (0x0A, &[a, b]) => site.base_deposition = u16::from_be_bytes([a, b]),
        (0x0B, &[a, b]) => site.critical_ratio = u16::from_be_bytes([a, b]),
        (0x0C, &[a, b]) => site.gibbsite = u16::from_be_bytes([a, b]),
        (0x0D, &[a, b]) => site.hydrogen_ceiling = u16::from_be_bytes([a, b]),
        (0x0E, &[a, b]) => site.leachate_nitrogen = u16::from_be_bytes([a, b]),
        (0x0F, &[a, b, c, d]) => {
            site.sulphur = u16::from_be_bytes([a, b]);
            site.nitrogen = u16::from_be_bytes([c, d]);
        }
        (0x10, &[v]) => site.temperature = v,
        (0x11, &[a, b]) => site.carbon_dioxide = u16::from_be_bytes([a, b]),
        _ => return Err(Rule::Length),
    }
    Ok(())
}

/// Enters the entries of a stand, none or up to four, each widened to five bytes.
#[inline(always)]
fn set_stand<const N: usize>(
    site: &mut Site,
    value: &[u8],
    widen: impl Fn([u8; N]) -> [u8; 5],
) -> Result<(), Rule> {
    let (entries, []) = value.as_chunks() else {
        return Err(Rule::Length);
    };
    if entries.len() > 4 {
        return Err(Rule::Length);
    }
    for (entry, &bytes) in site.stand.iter_mut().zip(entries) {
        let [s0, s1, share, g0, g1] = widen(bytes);
        *entry = Entry {
            species: u16::from_be_bytes([s0, s1]),
            share,
            growth: u16::from_be_bytes([g0, g1]),
        };
    }
    site.entries = entries.len() as u8;
    Ok(())
}
