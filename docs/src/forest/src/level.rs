//! The search for the hydrogen level: document 02, E4.

use crate::refusal::Refusal;
use crate::site::Site;
use crate::terms::{terms, Terms};

/// The greatest allowed level, and how many levels were compared with the aluminium limit to find it.
#[derive(Clone, Copy, Debug, PartialEq, Eq)]
pub struct Found {
    pub level: i64,
    pub compared: i64,
}

/// The level of a site value, once it passes the checks.
pub fn level(site: &Site, list: &[u8]) -> Result<Found, Refusal> {
    let Terms {
        level, compared, ..
    } = terms(site, list)?;
    Ok(Found { level, compared })
}

/// The ceiling is looked at first and, only if it is not allowed, always the mean, down, of the greatest level known allowed
/// (0 at first, which is not compared) and the least known not, until these are neighbours.
#[inline]
pub fn search(ceiling: i64, mut allowed: impl FnMut(i64) -> bool) -> Found {
    if allowed(ceiling) {
        return Found {
            level: ceiling,
            compared: 1,
        };
    }
    let (mut greatest_allowed, mut least_not) = (0, ceiling);
    let mut compared = 1;
    while least_not - greatest_allowed > 1 {
        let mean = (greatest_allowed + least_not) / 2;
        compared += 1;
        if allowed(mean) {
            greatest_allowed = mean;
        } else {
            least_not = mean;
        }
    }
    Found {
        level: greatest_allowed,
        compared,
    }
}
