//! Records and files, valid and damaged. The list is that which holds their species.

use crate::lists;
use crate::random::Random;
use crate::sites::{self, KINDS, TARGETS};
use forest::Kind::{Tag52, Tag53, Tag54, Tag55};
use forest::{Kind, Site, EIGHT_DEGREES};

/// A field whose length need not be that of its value.
#[derive(Clone)]
struct Field {
    tag: u8,
    length: u16,
    value: Vec<u8>,
}

impl Field {
    fn new(tag: u8, value: Vec<u8>) -> Field {
        Field {
            tag,
            length: value.len() as u16,
            value,
        }
    }

    fn bytes(&self) -> Vec<u8> {
        let [high, low] = self.length.to_be_bytes();
        [&[self.tag, high, low], &self.value[..]].concat()
    }
}

/// The fields of a site, in range or not.
fn fields(site: &Site) -> Vec<Field> {
    let two = |number: u16| number.to_be_bytes().to_vec();
    let stand = &site.stand[..usize::from(site.entries)];
    let entries = stand.iter().flat_map(|entry| {
        let [species, growth] = [entry.species, entry.growth].map(u16::to_be_bytes);
        let bytes = [species[0], species[1], entry.share, growth[0], growth[1]];
        bytes
            .into_iter()
            .skip(usize::from(!site.kind.has_wide_species()))
    });
    let mut values = vec![
        site.name[..usize::from(site.name_length)].to_vec(),
        vec![site.parent_material],
        vec![site.clay, site.sand],
        vec![site.root_depth],
        vec![site.drainage],
        two(site.percolation),
        entries.collect(),
        two(site.immobilisation),
        vec![site.available_share],
        two(site.base_deposition),
        two(site.critical_ratio),
        two(site.gibbsite),
        two(site.hydrogen_ceiling),
        two(site.leachate_nitrogen),
        [two(site.sulphur), two(site.nitrogen)].concat(),
    ];
    if site.kind != Tag52 {
        values.push(vec![site.temperature]);
    }
    if site.kind == Tag55 {
        values.push(two(site.carbon_dioxide));
    }
    (0x01..)
        .zip(values)
        .map(|(tag, value)| Field::new(tag, value))
        .collect()
}

/// An outer field around a value.
fn outer(tag: u8, value: Vec<u8>) -> Vec<u8> {
    Field::new(tag, value).bytes()
}

fn assemble(kind: Kind, fields: &[Field]) -> Vec<u8> {
    let value = fields.iter().flat_map(Field::bytes).collect();
    outer(kind as u8, value)
}

/// The record of a site.
pub fn record_of(site: &Site) -> Vec<u8> {
    assemble(site.kind, &fields(site))
}

pub fn good_record(random: &mut Random, list: &[u8]) -> Vec<u8> {
    record_of(&sites::good(random, list))
}

/// One in so many of a file's records is at any temperature, or of any species; the others are at 8 °C, or of the table's
/// species, so that they can be moved down.
const EVERY: usize = 1;
const FEW: usize = 30;
const NONE: usize = usize::MAX;

/// Records of one kind or of several.
pub fn good_records(random: &mut Random, count: usize, list: &[u8]) -> Vec<u8> {
    let kinds = random.pick(&[
        &[Tag52][..],
        &[Tag53],
        &[Tag54],
        &[Tag54],
        &[Tag52, Tag53],
        &[Tag52, Tag54],
        &[Tag53, Tag54],
        &TARGETS,
        &[Tag55],
        &[Tag54, Tag55],
        &KINDS,
    ]);
    let any = [(); 2].map(|()| random.pick(&[EVERY, EVERY, FEW, NONE]));
    records_of(random, count, kinds, any, list)
}

/// Records of these kinds, one in so many at any temperature, and one in so many of any species.
fn records_of(
    random: &mut Random,
    count: usize,
    kinds: &[Kind],
    [any_temperature, any_species]: [usize; 2],
    list: &[u8],
) -> Vec<u8> {
    let mut record = || {
        let (kind, entries) = (random.pick(kinds), sites::entries(random));
        let list = if random.one_in(any_species) {
            list
        } else {
            &[]
        };
        let mut site = sites::good_of(random, kind, entries, list);
        if !random.one_in(any_temperature) {
            sites::make_mild(random, &mut site, list);
        }
        record_of(&site)
    };
    (0..count).flat_map(|_| record()).collect()
}

/// A record of kind 53 or 54 that cannot be moved to 52, nor, of kind 54 and with a list, to 53.
fn stuck_record(random: &mut Random, kind: Kind, list: &[u8]) -> Vec<u8> {
    let mut site = sites::good_of(random, kind, 4, list);
    site.temperature = EIGHT_DEGREES + 1;
    if let (Tag54, Some(last)) = (kind, lists::numbers(list).last()) {
        site.stand[3].species = last;
    }
    record_of(&site)
}

/// A record damaged in its values, its fields, its outer tag or its bytes.
fn damaged_record(random: &mut Random, list: &[u8]) -> Vec<u8> {
    let mut site = sites::good(random, list);
    let places = random.pick(&[1, 1, 1, 2, 3]);
    match random.below(12) {
        0..=2 => {
            (0..places).for_each(|_| sites::spoil_value(random, &mut site, list));
            record_of(&site)
        }
        3..=5 => {
            let mut fields = fields(&site);
            (0..places).for_each(|_| damage_fields(random, &mut fields));
            assemble(site.kind, &fields)
        }
        6 => cut_within(random, &record_of(&site)),
        // That of another kind, or the one before or after all.
        7 => {
            let mut record = record_of(&site);
            record[0] = random.pick(&[0x51, 0x52, 0x53, 0x54, 0x55, 0x55, 0x56]);
            record
        }
        8 | 9 => negative_record(random, list),
        10 => broken_negative(random, list),
        _ => {
            let mut record = record_of(&site);
            (0..places).for_each(|_| damage_bytes(random, &mut record));
            record
        }
    }
}

/// A record that is refused by 21.
fn negative_record(random: &mut Random, list: &[u8]) -> Vec<u8> {
    record_of(&sites::negative(random, list))
}

/// Such a record with another fault: bytes after its last field, more carbon dioxide than there can be, or any.
fn broken_negative(random: &mut Random, list: &[u8]) -> Vec<u8> {
    let mut site = sites::negative(random, list);
    let mut fields = fields(&site);
    match random.below(4) {
        0 => {
            let more = random.between(1, 5) as usize;
            fields[16].value.extend(random.bytes(more));
        }
        1 => fields[16].value = vec![0x13, 0x89],
        2 => damage_fields(random, &mut fields),
        _ => {
            sites::spoil_value(random, &mut site, list);
            return record_of(&site);
        }
    }
    assemble(Tag55, &fields)
}

fn damage_fields(random: &mut Random, fields: &mut Vec<Field>) {
    if fields.is_empty() {
        return;
    }
    let at = random.below(fields.len());
    let field = &mut fields[at];
    match random.below(12) {
        0 => {
            field.tag = random.pick(&[
                0,
                0x0F,
                0x10,
                0x11,
                0x12,
                0x52,
                field.tag ^ 1,
                field.tag.wrapping_add(1),
                0xFF,
            ])
        }
        1 => {
            let other = random.below(fields.len());
            fields.swap(at, other);
        }
        2 => drop(fields.remove(at)),
        3 => {
            let again = field.clone();
            fields.insert(at, again);
        }
        // A longer or shorter value, its length in keeping.
        4 => {
            let length = random.pick(&[0, 1, 2, 3, 4, 5, 8, 9, 10, 12, 15, 16, 17, 20, 24, 25]);
            field.value.resize(length, b'0');
            *field = Field::new(field.tag, field.value.clone());
        }
        5 => {
            let more = random.between(1, 4) as usize;
            field.value.extend(random.bytes(more));
            *field = Field::new(field.tag, field.value.clone());
        }
        // A length that is not that of the value.
        6 => {
            let near = field.length as i64 + random.between(-2, 2);
            field.length = near.max(0) as u16;
        }
        7 => field.length = random.pick(&[field.length | 0x0100, 90, 255, 256, 65535]),
        // Bytes or a field after the last.
        8 => {
            let more = random.between(1, 5) as usize;
            let last = fields.len() - 1;
            fields[last].value.extend(random.bytes(more));
        }
        9 => {
            let more = random.below(4);
            let (tag, value) = (random.pick(&[0x10, 0x11, 0x12]), random.bytes(more));
            fields.push(Field::new(tag, value));
        }
        // Nothing left where a field is due.
        10 => fields.truncate(at),
        // Stands of too many entries or of a part of one, names of no or too many bytes.
        _ => {
            let (index, length) = if random.one_in(3) {
                (0, random.pick(&[0, 9, 100]))
            } else {
                (
                    6,
                    random.pick(&[1, 3, 4, 5, 6, 8, 10, 12, 15, 16, 20, 25, 120]),
                )
            };
            if let Some(field) = fields.get_mut(index) {
                field.value.resize(length, b'A');
                *field = Field::new(field.tag, field.value.clone());
            }
        }
    }
}

/// A record that ends early, within a field or with a byte or two too many, its own length in keeping.
fn cut_within(random: &mut Random, record: &[u8]) -> Vec<u8> {
    let end = 3 + random.below(record.len() - 3);
    let mut value = record[3..end].to_vec();
    if random.one_in(4) {
        let more = random.between(1, 2) as usize;
        value.extend(random.bytes(more));
    }
    outer(record[0], value)
}

fn damage_bytes(random: &mut Random, bytes: &mut Vec<u8>) {
    if bytes.len() < 3 {
        return;
    }
    let at = random.below(bytes.len());
    match random.below(8) {
        0 => bytes[0] = random.pick(&[0, 0x01, 0x51, 0x52, 0x53, 0x54, 0x55, 0x56, 0x72, 0xFF]),
        1 => bytes[1] = random.pick(&[1, 2, 0x80, 0xFF]),
        2 => bytes[2] = bytes[2].wrapping_add(random.pick(&[1, 2, 3, 4, 255, 254, 253])),
        3 => bytes[2] = random.pick(&[0, 1, 2, 3, 255]),
        4 => bytes[at] ^= 1 << random.below(8),
        5 => bytes[at] = random.byte(),
        6 => drop(bytes.remove(at)),
        _ => bytes.insert(at, random.byte()),
    }
}

/// A single record, or what is lent in place of one.
pub fn record(random: &mut Random, list: &[u8]) -> Vec<u8> {
    match random.below(32) {
        0 => Vec::new(),
        1 => {
            let length = random.below(100);
            random.bytes(length)
        }
        2 => {
            let record = good_record(random, list);
            record[..random.below(record.len())].to_vec()
        }
        3 | 4 => {
            let more = random.between(1, 4) as usize;
            [good_or_negative(random, list), random.bytes(more)].concat()
        }
        5 => [good_or_negative(random, list), good_record(random, list)].concat(),
        6..=19 => good_record(random, list),
        _ => damaged_record(random, list),
    }
}

fn good_or_negative(random: &mut Random, list: &[u8]) -> Vec<u8> {
    if random.one_in(4) {
        negative_record(random, list)
    } else {
        good_record(random, list)
    }
}

/// A file: valid, with a damaged record, or damaged as a whole.
pub fn file(random: &mut Random, list: &[u8]) -> Vec<u8> {
    let count = random.pick(&[1, 1, 2, 3, 4, 6, 10, 20]);
    match random.below(256) {
        0..=3 => Vec::new(),
        4..=7 => {
            let length = random.between(1, 300) as usize;
            random.bytes(length)
        }
        8 => long_file(random, list),
        9 => some_pages(random, list),
        10..=28 => {
            let file = good_records(random, count, list);
            file[..random.below(file.len())].to_vec()
        }
        29..=44 => {
            let more = random.between(1, 4) as usize;
            [good_records(random, count, list), random.bytes(more)].concat()
        }
        45..=60 => {
            let mut file = good_records(random, count, list);
            damage_bytes(random, &mut file);
            file
        }
        61..=150 => {
            let at = random.below(count);
            let mut file = good_records(random, at, list);
            file.extend(damaged_record(random, list));
            if random.one_in(4) {
                file.extend(damaged_record(random, list));
            }
            file.extend(good_records(random, count - at - 1, list));
            file
        }
        _ => good_records(random, count, list),
    }
}

/// A file of about 500 records, sometimes with bytes after it or a bit changed.
pub fn long_file(random: &mut Random, list: &[u8]) -> Vec<u8> {
    let records = match random.below(8) {
        0 => 499,
        1 | 2 => 501,
        3 => random.between(480, 520) as usize,
        _ => 500,
    };
    let mut file = good_records(random, records, list);
    match random.below(6) {
        0 => {
            let more = random.between(1, 3) as usize;
            file.extend(random.bytes(more));
        }
        1 => {
            let at = random.below(file.len());
            file[at] ^= 1 << random.below(8);
        }
        _ => {}
    }
    file
}

/// A file of one to three pages, sometimes with a damaged record at its end.
fn some_pages(random: &mut Random, list: &[u8]) -> Vec<u8> {
    let records = random.between(50, 130) as usize;
    let mut file = good_records(random, records, list);
    if random.one_in(4) {
        file.extend(damaged_record(random, list));
    }
    file
}

/// Files at the borders of 500 records and of the program's buffers, and longer ones.
pub fn border_files(random: &mut Random, list: &[u8]) -> Vec<Vec<u8>> {
    // Two values of 255 bytes: a whole record's fields with bytes after them, and a name too long.
    let record = good_record(random, list);
    let mut whole = record[3..].to_vec();
    whole.resize(255, 0x10);
    let whole = outer(record[0], whole);
    let long_name = outer(0x54, Field::new(0x01, vec![b'A'; 252]).bytes());
    let [stuck_53, stuck_54] = [Tag53, Tag54].map(|kind| {
        let movable = records_of(random, 499, &TARGETS, [NONE, NONE], list);
        [movable, stuck_record(random, kind, list)].concat()
    });
    let negative = negative_record(random, list);
    vec![
        good_records(random, 500, list),
        good_records(random, 501, list),
        longest_records(random, 500, list),
        longest_records(random, 501, list),
        longest_movable(random, 500, list),
        longest_movable(random, 501, list),
        [&longest_records(random, 499, list)[..], &negative].concat(),
        [&longest_movable(random, 499, list)[..], &negative, &[0x55]].concat(),
        shortest_records(random, 500),
        shortest_records(random, 501),
        stuck_53,
        stuck_54,
        [&longest_records(random, 500, list)[..], &[0x52]].concat(),
        [&longest_records(random, 500, list)[..], &[0x54]].concat(),
        [&longest_movable(random, 500, list)[..], &[0x55]].concat(),
        [&shortest_records(random, 500)[..], &[0x52]].concat(),
        [&longest_records(random, 499, list)[..], &long_name].concat(),
        [&longest_records(random, 499, list)[..], &whole].concat(),
        [&longest_records(random, 499, list)[..], &whole[..257]].concat(),
        good_records(random, 1600, list),
        [good_records(random, 500, list), random.bytes(150_000)].concat(),
        [good_records(random, 3, list), random.bytes(150_000)].concat(),
        vec![0x52; 129_000],
        vec![0; 129_001],
        vec![0x52; 400_000],
        vec![0x54; 129_000],
        vec![0x54; 400_000],
        vec![0x55; 129_000],
        vec![0x55; 400_000],
    ]
}

/// As many records as fill 1, 2 or 8 pages, and one more; one fewer than fill the first; one; and the most.
pub const PAGE_BORDERS: [usize; 9] = [1, 58, 59, 60, 118, 119, 472, 473, 500];

/// Files of so many records, and files with a fault after one page and after two.
pub fn page_border_files(random: &mut Random, list: &[u8]) -> Vec<Vec<u8>> {
    let mut files: Vec<_> = PAGE_BORDERS
        .iter()
        .map(|&count| good_records(random, count, list))
        .collect();
    files.push([&longest_records(random, 59, list)[..], &[0x52]].concat());
    files.push([longest_movable(random, 118, list), outer(0x54, vec![0x01])].concat());
    files.push(
        [
            longest_records(random, 59, list),
            negative_record(random, list),
        ]
        .concat(),
    );
    files
}

/// Valid records of 109 bytes each: of kind 55, a name of eight, a stand of four.
fn longest_records(random: &mut Random, count: usize, list: &[u8]) -> Vec<u8> {
    records_of_length(109, count, || sites::good_of(random, Tag55, 4, list))
}

/// The longest that can be moved, of 104 bytes each: such records of kind 54.
fn longest_movable(random: &mut Random, count: usize, list: &[u8]) -> Vec<u8> {
    records_of_length(104, count, || sites::good_of(random, Tag54, 4, list))
}

/// Valid records of 73 bytes each: of kind 52, a name of one, no stand.
fn shortest_records(random: &mut Random, count: usize) -> Vec<u8> {
    records_of_length(73, count, || sites::good_of(random, Tag52, 0, &[]))
}

/// The first records of so many bytes.
fn records_of_length(length: usize, count: usize, mut site: impl FnMut() -> Site) -> Vec<u8> {
    let records = std::iter::repeat_with(|| record_of(&site()));
    records
        .filter(|record| record.len() == length)
        .take(count)
        .flatten()
        .collect()
}
