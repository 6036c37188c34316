//! Site values with the twelve months of a rain sampler, good and bad.

use crate::random::Random;
use crate::sites::{self, ranged};
use forest::Site;

/// The bits of 1000.0, the greatest concentration.
const MOST: i64 = 0x447A_0000;
/// The first bits after the subnormals, those of infinity, and the sign.
const NORMAL: i64 = 0x0080_0000;
const INFINITE: i64 = 0x7F80_0000;
const SIGN: i64 = 0x8000_0000;

/// The case of a reading, and its float's bits.
type Reading = (u8, u32);

#[derive(Clone, Copy)]
struct Month {
    rain: u16,
    /// Sulphate, nitrate, ammonium.
    readings: [Reading; 3],
}

/// A site value, and the months in bytes. Often they give a pair at a border of the site, which itself has another one.
pub fn sampled_site(random: &mut Random, list: &[u8]) -> (Vec<u8>, Vec<u8>) {
    let mut value = sites::value(random, list);
    let mut months = match Site::from_bytes(&value) {
        Ok(site) if random.one_in(2) => {
            value[46..50].copy_from_slice(&random.bytes(4));
            let sulphur = sum(random, site.sulphur, 1600);
            let nitrogen = sum(random, site.nitrogen, 1400);
            with_sums(random, sulphur, nitrogen)
        }
        _ => {
            let most = random.pick(&[3, 50, 1000, 20_000, 1_000_000]);
            [(); 12].map(|()| month(random, most))
        }
    };
    if random.one_in(2) {
        for _ in 0..random.pick(&[1, 1, 2, 5]) {
            spoil(random, &mut months);
        }
    }
    let mut months = bytes(&months);
    if random.one_in(64) {
        let length = random.pick(&[0, 17, 203, 205, 221]);
        months.resize(length, 0);
    }
    (value, months)
}

/// A sum that gives so many eq per hectare, `per` to each; at times one more than that.
fn sum(random: &mut Random, eq: u16, per: i64) -> i64 {
    let greatest = i64::from(eq) * per;
    let below = random.pick(&[-1, 0, 0, 1, per - 1]);
    (greatest - below).max(0)
}

/// Months with these sums of mm times µg per litre: the thousands in one, the rest in another, nothing in the others.
fn with_sums(random: &mut Random, sulphur: i64, nitrogen: i64) -> [Month; 12] {
    let mut months = [(); 12].map(|()| {
        let mut month = month(random, 1_000_000);
        if random.one_in(2) {
            month.rain = 0;
        } else {
            month.readings = [(); 3].map(|()| reading(random, 0));
        }
        month
    });
    let thousands = random.below(12);
    let rest = (thousands + random.between(1, 11) as usize) % 12;
    for (index, rain, unit) in [(thousands, 1000, 1000), (rest, 1, 1)] {
        let whole = |sum: i64| if unit == 1 { sum % 1000 } else { sum / 1000 };
        let nitrate = random.between(0, whole(nitrogen));
        let ammonium = whole(nitrogen) - nitrate;
        let micrograms = [whole(sulphur), nitrate, ammonium];
        months[index] = Month {
            rain,
            readings: micrograms.map(|micrograms| reading(random, micrograms)),
        };
    }
    months
}

/// A month with concentrations of up to so many µg per litre, among them some of any size.
fn month(random: &mut Random, most: i64) -> Month {
    Month {
        rain: ranged(random, 0, 1000) as u16,
        readings: [(); 3].map(|()| match random.below(24) {
            0 => (random.below(2) as u8, MOST as u32),
            1 | 2 => (random.below(2) as u8, random.between(0, MOST) as u32),
            3 | 4 => (random.below(2) as u8, random.between(1, NORMAL) as u32),
            _ => {
                let micrograms = random.between(0, most);
                reading(random, micrograms)
            }
        }),
    }
}

/// A reading of so many µg per litre, measured or below a limit: by one of the floats that are taken up to it.
fn reading(random: &mut Random, micrograms: i64) -> Reading {
    let case = u8::from(random.one_in(3));
    if micrograms == 0 {
        return (case, random.pick(&[0, SIGN as u32]));
    }
    let less = random.pick(&[0.0, 0.0, 0.25, 0.5, 0.9]);
    let mut float = ((micrograms as f64 - less) / 1000.0) as f32;
    while f64::from(float) * 1000.0 > micrograms as f64 {
        float = float.next_down();
    }
    (case, float.to_bits())
}

/// Takes the rain or a reading of a month out of its range.
fn spoil(random: &mut Random, months: &mut [Month; 12]) {
    let month = &mut months[random.below(12)];
    let reading = &mut month.readings[random.below(3)];
    match random.below(8) {
        0 => month.rain = random.pick(&[1001, 1002, 32768, 65535]),
        1 => reading.0 = 2,
        2 => {
            reading.0 = random.pick(&[2, 3, 4, 128, 255]);
            month.rain = 0;
        }
        3 => reading.1 = random.pick(&[MOST + 1, INFINITE, INFINITE + SIGN, SIGN + 1]) as u32,
        4 => reading.1 = random.between(MOST + 1, INFINITE) as u32,
        5 => reading.1 = random.between(INFINITE + 1, SIGN - 1) as u32,
        6 => reading.1 = random.between(SIGN + 1, SIGN + INFINITE) as u32,
        _ => reading.1 = random.between(SIGN + INFINITE, 2 * SIGN - 1) as u32,
    }
}

fn bytes(months: &[Month; 12]) -> Vec<u8> {
    let mut bytes = Vec::with_capacity(204);
    for month in months {
        bytes.extend(month.rain.to_be_bytes());
        for (case, bits) in month.readings {
            bytes.push(case);
            bytes.extend(bits.to_be_bytes());
        }
    }
    bytes
}
