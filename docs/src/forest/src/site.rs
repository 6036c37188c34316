use crate::refusal::{Refusal, Rule};
use crate::species::{SpeciesList, StandContents, IN_LIST, IN_TABLE};
use crate::terms::Terms;
use std::ops::RangeInclusive;

/// The kind of a record, by its outer tag.
#[derive(Clone, Copy, Debug, Default, PartialEq, Eq)]
pub enum Kind {
    /// The fields 01 to 0F.
    #[default]
    Tag52 = 0x52,
    /// These and field 10, the temperature.
    Tag53 = 0x53,
    /// Those of 53, with two bytes for a species.
    Tag54 = 0x54,
    /// Those of 54 and field 11, the carbon dioxide of the soil.
    Tag55 = 0x55,
}

impl Kind {
    pub(crate) const ALL: &[Kind] = &[Kind::Tag52, Kind::Tag53, Kind::Tag54, Kind::Tag55];
    /// Those from which and to which records are moved.
    pub(crate) const MOVED: &[Kind] = &[Kind::Tag52, Kind::Tag53, Kind::Tag54];

    /// The one of some kinds that has a tag.
    #[inline(always)]
    pub(crate) fn of_tag(tag: u8, kinds: &[Kind]) -> Option<Kind> {
        kinds.iter().copied().find(|&kind| kind as u8 == tag)
    }

    /// The tags due in its records.
    #[inline(always)]
    pub(crate) fn tags(self) -> RangeInclusive<u8> {
        match self {
            Kind::Tag52 => 0x01..=0x0F,
            Kind::Tag53 | Kind::Tag54 => 0x01..=0x10,
            Kind::Tag55 => 0x01..=0x11,
        }
    }

    /// Whether a species has two bytes.
    #[inline(always)]
    pub fn has_wide_species(self) -> bool {
        matches!(self, Kind::Tag54 | Kind::Tag55)
    }

    #[inline]
    fn has_species(self, species: u16) -> bool {
        IN_TABLE.contains(&species) || self.has_wide_species() && IN_LIST.contains(&species)
    }
}

/// The temperature byte of 8 °C, which the reader gives to a site of kind 52.
pub const EIGHT_DEGREES: u8 = 13;

/// One species of the stand.
#[derive(Clone, Copy, Debug, Default, PartialEq, Eq)]
pub struct Entry {
    pub species: u16,
    /// Percent.
    pub share: u8,
    /// Of a pure stand, kg dry matter ha⁻¹ a⁻¹.
    pub growth: u16,
}

/// A site's values as a record holds them; any content is possible, [`check`] tells the good ones.
#[derive(Clone, Copy, Debug, Default, PartialEq, Eq)]
pub struct Site {
    pub kind: Kind,
    pub name: [u8; 8],
    pub name_length: u8,
    pub parent_material: u8,
    pub clay: u8,
    pub sand: u8,
    pub root_depth: u8,
    pub drainage: u8,
    pub percolation: u16,
    pub stand: [Entry; 4],
    /// 0 at a reserve, which has no stand.
    pub entries: u8,
    pub immobilisation: u16,
    pub available_share: u8,
    pub base_deposition: u16,
    pub critical_ratio: u16,
    pub gibbsite: u16,
    pub hydrogen_ceiling: u16,
    pub leachate_nitrogen: u16,
    pub sulphur: u16,
    pub nitrogen: u16,
    /// °C above −5; no part of a site of kind 52.
    pub temperature: u8,
    /// P, that of the soil, in 0.00001 atm; no part of a site but of kind 55.
    pub carbon_dioxide: u16,
}

impl Site {
    /// The site value of `docs/forest.h`: 50 bytes are of kind 52, 51 of kind 53, 55 of kind 54, 57 of kind 55, and another
    /// length is refused.
    pub fn from_bytes(bytes: &[u8]) -> Result<Site, Refusal> {
        let wrong_length = Rule::Length.at(0);
        let (b, rest) = bytes.split_first_chunk::<50>().ok_or(wrong_length)?;
        let (kind, temperature, species_high, carbon_dioxide) = match *rest {
            [] => (Kind::Tag52, EIGHT_DEGREES, [0; 4], [0; 2]),
            [temperature] => (Kind::Tag53, temperature, [0; 4], [0; 2]),
            [temperature, a, b, c, d] => (Kind::Tag54, temperature, [a, b, c, d], [0; 2]),
            [temperature, a, b, c, d, p0, p1] => (Kind::Tag55, temperature, [a, b, c, d], [p0, p1]),
            _ => return Err(wrong_length),
        };
        let two = |at: usize| u16::from_be_bytes([b[at], b[at + 1]]);
        let entry = |index: usize| {
            let at = 16 + 4 * index;
            Entry {
                species: u16::from_be_bytes([species_high[index], b[at]]),
                share: b[at + 1],
                growth: two(at + 2),
            }
        };
        Ok(Site {
            kind,
            name: [b[0], b[1], b[2], b[3], b[4], b[5], b[6], b[7]],
            name_length: b[8],
            parent_material: b[9],
            clay: b[10],
            sand: b[11],
            root_depth: b[12],
            drainage: b[13],
            percolation: two(14),
            stand: [0, 1, 2, 3].map(entry),
            entries: b[32],
            immobilisation: two(33),
            available_share: b[35],
            base_deposition: two(36),
            critical_ratio: two(38),
            gibbsite: two(40),
            hydrogen_ceiling: two(42),
            leachate_nitrogen: two(44),
            sulphur: two(46),
            nitrogen: two(48),
            temperature,
            carbon_dioxide: u16::from_be_bytes(carbon_dioxide),
        })
    }

    pub(crate) fn name(&self) -> &[u8] {
        &self.name[..usize::from(self.name_length)]
    }

    pub(crate) fn stand(&self) -> &[Entry] {
        &self.stand[..usize::from(self.entries)]
    }
}

/// Rule 15 over a list, then 7 to 10 and 16 over a whole site value, in the order of the tags, then 21.
pub fn check(site: &Site, list: &[u8]) -> Result<(), Refusal> {
    stand_contents(site, list).map(|_| ())
}

/// As [`check`]; gives the contents of the stand's entries.
pub(crate) fn stand_contents(site: &Site, list: &[u8]) -> Result<StandContents, Refusal> {
    let list = SpeciesList::checked(list)?;
    let mut contents = StandContents::default();
    for tag in site.kind.tags() {
        check_field(site, tag, list, &mut contents).map_err(|rule| rule.at(0))?;
    }
    check_load(site, &contents).map_err(|rule| rule.at(0))?;
    Ok(contents)
}

/// Rules 7 to 10 and 16 over the value of one tag. The stand's contents are set.
#[inline(always)]
pub(crate) fn check_field(
    site: &Site,
    tag: u8,
    list: SpeciesList,
    contents: &mut StandContents,
) -> Result<(), Rule> {
    let in_range = match tag {
        0x01 => {
            demand(matches!(site.name_length, 1..=8), Rule::Length)?;
            let allowed = |byte: &u8| matches!(byte, b'A'..=b'Z' | b'0'..=b'9' | b'-');
            site.name().iter().all(allowed)
        }
        0x02 => site.parent_material <= 4,
        0x03 => u16::from(site.clay) + u16::from(site.sand) <= 100,
        0x04 => (1..=200).contains(&site.root_depth),
        0x05 => site.drainage <= 5,
        0x06 => (1..=3000).contains(&site.percolation),
        0x07 => {
            check_stand(site)?;
            *contents = list.contents_of(site.stand())?;
            true
        }
        0x08 => site.immobilisation <= 500,
        0x09 => (70..=85).contains(&site.available_share),
        0x0A => site.base_deposition <= 5000,
        0x0B => (100..=20000).contains(&site.critical_ratio),
        0x0C => (1..=10000).contains(&site.gibbsite),
        0x0D => (1..=5000).contains(&site.hydrogen_ceiling),
        0x0E => (1..=1000).contains(&site.leachate_nitrogen),
        0x10 => site.temperature <= 25,
        0x11 => site.carbon_dioxide <= 5000,
        _ => true,
    };
    demand(in_range, Rule::Range)
}

/// Rule 21 over a site that passes the others. Bicarbonate is lost in kind 55 alone; elsewhere CLmaxS is never below 0.
#[inline]
pub(crate) fn check_load(site: &Site, contents: &StandContents) -> Result<(), Rule> {
    let has_load = site.kind != Kind::Tag55 || Terms::of(site, contents).max_s(site) >= 0;
    demand(has_load, Rule::NegativeLoad)
}

#[inline(always)]
fn check_stand(site: &Site) -> Result<(), Rule> {
    demand(site.entries <= 4, Rule::Length)?;
    let stand = site.stand();
    let in_range = |entry: &Entry| {
        site.kind.has_species(entry.species)
            && (1..=100).contains(&entry.share)
            && entry.growth <= 20000
    };
    demand(stand.iter().all(in_range), Rule::Range)?;
    let rising = |pair: &[Entry]| pair[0].species < pair[1].species;
    demand(stand.windows(2).all(rising), Rule::Species)?;
    let shares: u16 = stand.iter().map(|entry| u16::from(entry.share)).sum();
    demand(stand.is_empty() || shares == 100, Rule::Shares)
}

#[inline(always)]
fn demand(holds: bool, rule: Rule) -> Result<(), Rule> {
    if holds {
        Ok(())
    } else {
        Err(rule)
    }
}
