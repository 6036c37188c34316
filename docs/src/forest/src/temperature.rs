//! The temperature's part in the weathering: document 02, E5.

use crate::site::{Kind, Site};
use crate::whole::Whole;
use std::array;
use std::sync::LazyLock;

/// t by temperature byte, worked out once.
static FACTORS: LazyLock<[i64; 26]> =
    LazyLock::new(|| array::from_fn(|byte| factor(byte as i64 - 5)));

/// t, per mille, of a site that passes the checks.
#[inline]
pub fn temperature_factor(site: &Site) -> i64 {
    match site.kind {
        Kind::Tag52 => 1000,
        Kind::Tag53 | Kind::Tag54 | Kind::Tag55 => FACTORS[usize::from(site.temperature)],
    }
}

/// The whole number nearest, a half going up, to 1000 times the sum of xʲ / j! for j from 0 to 12, at a temperature in °C.
///
/// With x = a / q and R = 12! × q¹² the sum is P / R, and P that of the whole numbers aʲ × q¹²⁻ʲ × 12! / j!. So t is the
/// greatest number with (2t − 1) × R at most 2000 × P.
fn factor(celsius: i64) -> i64 {
    let a = 3600 * (celsius - 8);
    let q = 281 * (273 + celsius);
    let term = |j: i64| {
        let powers = (0..j).map(|_| a);
        let rest = (j + 1..=12).flat_map(|k| [q, k]);
        Whole::product(powers.chain(rest).map(i64::unsigned_abs))
    };
    // Nothing is subtracted: the terms below zero stand on the other side.
    let (mut above, mut below) = (Whole::ZERO, Whole::ZERO);
    for j in 0..=12 {
        let side = if j % 2 == 1 && a < 0 {
            &mut below
        } else {
            &mut above
        };
        *side = side.plus(term(j));
    }
    let (above, below) = (above.times(2000), below.times(2000));
    let r = term(0);
    let mut t = 0;
    let mut border = r.plus(below);
    while border <= above {
        border = border.plus(r.times(2));
        t += 1;
    }
    t
}
