use crate::refusal::Refusal;
use crate::site::{stand_contents, Site};
use crate::species::StandContents;
use crate::terms::{up, Loads, Terms};

/// Within the loads, or over them with the acid region and both exceedances.
#[derive(Clone, Copy, Debug, PartialEq, Eq)]
pub enum Verdict {
    Within,
    Over {
        region: i64,
        acid: i64,
        nutrient: i64,
    },
}

#[derive(Clone, Copy, Debug, PartialEq, Eq)]
pub struct Judgement {
    pub loads: Loads,
    pub verdict: Verdict,
}

impl Judgement {
    /// The numbers of a line: the four loads, region, acid and nutrient exceedance, the last three 0 where it is within.
    pub fn numbers(&self) -> [i64; 7] {
        let loads = &self.loads;
        let [region, acid, nutrient] = match self.verdict {
            Verdict::Within => [0, 0, 0],
            Verdict::Over {
                region,
                acid,
                nutrient,
            } => [region, acid, nutrient],
        };
        [
            loads.max_s,
            loads.min_n,
            loads.max_n,
            loads.nut_n,
            region,
            acid,
            nutrient,
        ]
    }

    /// The last word of a line.
    pub(crate) fn mark(&self) -> &'static str {
        match self.verdict {
            Verdict::Within => "within",
            Verdict::Over { .. } => "over",
        }
    }
}

/// Loads and verdict of a site value, once it passes the checks.
pub fn judge(site: &Site, list: &[u8]) -> Result<Judgement, Refusal> {
    let contents = stand_contents(site, list)?;
    Ok(judge_checked(site, &contents))
}

pub(crate) fn judge_checked(site: &Site, contents: &StandContents) -> Judgement {
    let terms = Terms::of(site, contents);
    let loads = terms.loads(site);
    let (region, acid) = acid_exceedance(site, &loads, terms.left);
    let nutrient = (i64::from(site.nitrogen) - loads.nut_n).max(0);
    let verdict = if region == 0 && nutrient == 0 {
        Verdict::Within
    } else {
        Verdict::Over {
            region,
            acid,
            nutrient,
        }
    };
    Judgement { loads, verdict }
}

/// The first acid region that applies, and the exceedance there.
fn acid_exceedance(site: &Site, loads: &Loads, e: i64) -> (i64, i64) {
    let (s, max_s) = (i64::from(site.sulphur), loads.max_s);
    let n = i64::from(site.nitrogen) - loads.min_n;
    let v = 1000 * s + e * n - 1000 * max_s;
    let d = 1_000_000 + e * e;
    if s <= max_s && (n <= 0 || v <= 0) {
        (0, 0)
    } else if n <= 0 {
        (4, s - max_s)
    } else if e * v > n * d {
        (3, n + s - max_s)
    } else if 1000 * v > s * d {
        (1, s + up(e * n - 1000 * max_s, e))
    } else {
        (2, up((1000 + e) * v, d))
    }
}
