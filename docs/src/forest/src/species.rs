//! The contents of species: document 01's table, and the list of document 02, E6.

use crate::refusal::{Refusal, Rule};
use crate::site::Entry;
use std::ops::RangeInclusive;

/// Ca, Mg, K and N in hundredths of eq per tonne.
pub(crate) type Contents = [i64; 4];

/// The contents of the entries of a stand, in their order.
pub(crate) type StandContents = [Contents; 4];

/// By species from 0 on.
const TABLE: [Contents; 9] = [
    [5389, 1980, 1660, 7782],
    [7036, 1480, 1970, 8710],
    [8982, 2140, 3580, 10357],
    [12330, 1480, 2690, 14993],
    [8483, 2470, 3330, 9995],
    [5988, 1650, 1920, 12137],
    [4790, 1810, 1560, 8214],
    [14970, 1980, 2560, 9995],
    [8483, 2470, 3330, 9995],
];

/// The species of the table.
pub(crate) const IN_TABLE: RangeInclusive<u16> = 0..=8;
/// The species that stand in a list.
pub(crate) const IN_LIST: RangeInclusive<u16> = 256..=1023;

/// A lent species list in order: ten bytes for each species, its number and the contents.
#[derive(Clone, Copy)]
pub(crate) struct SpeciesList<'a>(&'a [[u8; 10]]);

/// Rule 15 over a list.
pub fn check_list(list: &[u8]) -> Result<(), Refusal> {
    SpeciesList::checked(list).map(|_| ())
}

impl SpeciesList<'_> {
    /// Refuses by 15 at the first entry that is broken, does not rise, or has another number.
    pub(crate) fn checked(list: &[u8]) -> Result<SpeciesList<'_>, Refusal> {
        let (entries, rest) = list.as_chunks();
        let mut least = *IN_LIST.start();
        for (index, entry) in entries.iter().enumerate() {
            let number = number(entry);
            if !(least..=*IN_LIST.end()).contains(&number) {
                return Err(Rule::List.at(10 * index));
            }
            least = number + 1;
        }
        if rest.is_empty() {
            Ok(SpeciesList(entries))
        } else {
            Err(Rule::List.at(10 * entries.len()))
        }
    }

    /// The contents of each entry of a stand that passes rules 7 to 10, or 16.
    #[inline]
    pub(crate) fn contents_of(self, stand: &[Entry]) -> Result<StandContents, Rule> {
        let mut contents = StandContents::default();
        for (to, entry) in contents.iter_mut().zip(stand) {
            *to = self.contents(entry.species).ok_or(Rule::Unlisted)?;
        }
        Ok(contents)
    }

    /// From table or list.
    #[inline]
    fn contents(self, species: u16) -> Option<Contents> {
        if let Some(&contents) = TABLE.get(usize::from(species)) {
            return Some(contents);
        }
        let at = self.0.binary_search_by_key(&species, number).ok()?;
        let [_, _, ref numbers @ ..] = self.0[at];
        let (numbers, _) = numbers.as_chunks();
        let mut contents = Contents::default();
        for (to, &number) in contents.iter_mut().zip(numbers) {
            *to = i64::from(u16::from_be_bytes(number));
        }
        Some(contents)
    }
}

/// The number of an entry of a list.
#[inline]
fn number(&[high, low, ..]: &[u8; 10]) -> u16 {
    u16::from_be_bytes([high, low])
}
