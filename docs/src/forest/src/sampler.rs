use crate::judgement::{judge_checked, Judgement};
use crate::refusal::{Refusal, Rule};
use crate::site::{stand_contents, Site};
use crate::terms::up;

const MOST_RAIN: u16 = 1000;

/// A concentration in mg per litre.
#[derive(Clone, Copy, Debug)]
pub enum Reading {
    Measured(f32),
    /// The detection limit that it lay below.
    Below(f32),
    Missing,
}

/// A month of the rain sampler.
#[derive(Clone, Copy, Debug)]
pub struct Month {
    /// mm.
    pub rain: u16,
    pub sulphate: Reading,
    pub nitrate: Reading,
    pub ammonium: Reading,
}

/// The pair of a year, and its judgement at a site.
#[derive(Clone, Copy, Debug, PartialEq, Eq)]
pub struct Sampled {
    pub sulphur: u16,
    pub nitrogen: u16,
    pub judgement: Judgement,
}

/// Judges a site by the pair of twelve months instead of its own.
pub fn sample(site: &Site, list: &[u8], months: &[Month; 12]) -> Result<Sampled, Refusal> {
    let contents = stand_contents(site, list)?;
    let (sulphur, nitrogen) = year(months)?;
    let site = Site {
        sulphur,
        nitrogen,
        ..*site
    };
    let judgement = judge_checked(&site, &contents);
    Ok(Sampled {
        sulphur,
        nitrogen,
        judgement,
    })
}

/// The pair of a year: the sums of mm times µg per litre, divided once, up.
pub fn year(months: &[Month; 12]) -> Result<(u16, u16), Refusal> {
    let (mut sulphur, mut nitrogen) = (0, 0);
    for (index, month) in months.iter().enumerate() {
        let [s, n, a] = month.micrograms().map_err(|rule| rule.at(index))?;
        sulphur += i64::from(month.rain) * s;
        nitrogen += i64::from(month.rain) * (n + a);
    }
    let divided = |sum, by| u16::try_from(up(sum, by)).map_err(|_| Rule::Pair.at(12));
    Ok((divided(sulphur, 1600)?, divided(nitrogen, 1400)?))
}

impl Month {
    /// Whole µg per litre of sulphate, nitrate and ammonium.
    fn micrograms(&self) -> Result<[i64; 3], Rule> {
        if self.rain > MOST_RAIN {
            return Err(Rule::Range);
        }
        Ok([
            self.sulphate.micrograms()?,
            self.nitrate.micrograms()?,
            self.ammonium.micrograms()?,
        ])
    }

    fn from_bytes(bytes: &[u8; 17]) -> Month {
        let reading = |at: usize| {
            let bits = u32::from_be_bytes([1, 2, 3, 4].map(|byte| bytes[at + byte]));
            match bytes[at] {
                0 => Reading::Measured(f32::from_bits(bits)),
                1 => Reading::Below(f32::from_bits(bits)),
                _ => Reading::Missing,
            }
        };
        Month {
            rain: u16::from_be_bytes([bytes[0], bytes[1]]),
            sulphate: reading(2),
            nitrate: reading(7),
            ammonium: reading(12),
        }
    }
}

impl Reading {
    /// Whole µg per litre, up. An `f64` holds a float's 24 digits times 1000 exactly, so that nothing else is rounded.
    pub fn micrograms(self) -> Result<i64, Rule> {
        let concentration = match self {
            Reading::Measured(measured) => measured,
            Reading::Below(limit) => limit,
            Reading::Missing => return Err(Rule::Missing),
        };
        // A NaN is in no range, and minus zero is in this one.
        if !(0.0..=1000.0).contains(&concentration) {
            return Err(Rule::Concentration);
        }
        Ok((f64::from(concentration) * 1000.0).ceil() as i64)
    }
}

/// The months of `docs/forest.h`; another length than 204 is refused.
pub fn months_from_bytes(bytes: &[u8]) -> Result<[Month; 12], Refusal> {
    let (months, []) = bytes.as_chunks() else {
        return Err(Rule::Length.at(0));
    };
    let months: &[[u8; 17]; 12] = months.try_into().map_err(|_| Rule::Length.at(0))?;
    Ok(months.each_ref().map(Month::from_bytes))
}
