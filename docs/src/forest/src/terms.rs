use crate::level::{search, Found};
use crate::refusal::Refusal;
use crate::site::{stand_contents, Kind, Site};
use crate::species::StandContents;
use crate::temperature::temperature_factor;

/// The terms of a site. Fluxes in eq ha⁻¹ a⁻¹.
#[derive(Clone, Copy, Debug, PartialEq, Eq)]
pub struct Terms {
    /// W.
    pub weathering: i64,
    /// w, the plant-available part of W.
    pub available: i64,
    /// Nu.
    pub nitrogen_uptake: i64,
    /// Bu.
    pub base_uptake: i64,
    /// A.
    pub aluminium_limit: i64,
    /// The greatest allowed h, tenths of meq m⁻³.
    pub level: i64,
    /// How many levels were compared with A to find it.
    pub compared: i64,
    /// M, the net leaching at the greatest allowed h: hydrogen and aluminium less bicarbonate, which may be below 0.
    pub acid_leaching: i64,
    /// e, what denitrification leaves, per mille.
    pub left: i64,
    /// L, acceptable leaching of nitrogen.
    pub leaching: i64,
}

/// The critical loads of a site.
#[derive(Clone, Copy, Debug, PartialEq, Eq)]
pub struct Loads {
    pub max_s: i64,
    pub min_n: i64,
    pub max_n: i64,
    pub nut_n: i64,
}

/// The terms of a site value, once it passes the checks.
pub fn terms(site: &Site, list: &[u8]) -> Result<Terms, Refusal> {
    let contents = stand_contents(site, list)?;
    Ok(Terms::of(site, &contents))
}

/// The loads of a site value, once it passes the checks.
pub fn loads(site: &Site, list: &[u8]) -> Result<Loads, Refusal> {
    Ok(terms(site, list)?.loads(site))
}

/// Texture class, 1 to 5.
pub fn texture_class(clay: u8, sand: u8) -> usize {
    match (clay, sand) {
        (60.., _) => 5,
        (35..=59, _) => 4,
        (_, ..=14) => 3,
        (..=17, 65..) => 1,
        _ => 2,
    }
}

fn weathering(site: &Site) -> i64 {
    let texture = texture_class(site.clay, site.sand) - 1;
    let class = match site.parent_material {
        0 => return 0,
        1 => [1, 3, 3, 6, 6][texture],
        2 | 3 => [2, 4, 4, 6, 6][texture],
        _ => 20,
    };
    (500 * class - 250) * i64::from(site.root_depth) * temperature_factor(site) / 100_000
}

/// d, the denitrified part, per mille: by drainage, and 800 for organic parent material at every drainage.
fn denitrified(site: &Site) -> i64 {
    match (site.parent_material, site.drainage) {
        (0, _) => 800,
        (_, drainage) => [0, 100, 200, 400, 700, 800][usize::from(drainage)],
    }
}

/// Nu and the demand for base cations, both 0 at a reserve.
fn uptake(site: &Site, contents: &StandContents) -> (i64, i64) {
    let (mut nitrogen, mut base) = (0, 0);
    for (entry, [ca, mg, k, n]) in site.stand().iter().zip(contents) {
        let weight = i64::from(entry.share) * i64::from(entry.growth);
        nitrogen += weight * n;
        base += weight * (ca + mg + k);
    }
    (nitrogen / 10_000_000, up(base, 10_000_000))
}

/// The quotient rounded up, for a dividend of at least 0.
#[inline]
pub(crate) fn up(dividend: i64, divisor: i64) -> i64 {
    (dividend + divisor - 1) / divisor
}

/// Hydrogen leached at level h.
#[inline]
pub fn hydrogen(site: &Site, h: i64) -> i64 {
    i64::from(site.percolation) * h / 1000
}

/// al(h), aluminium leached at level h.
#[inline]
pub fn aluminium(site: &Site, h: i64) -> i64 {
    let dissolved = i64::from(site.percolation) * i64::from(site.gibbsite) * (h * h * h);
    dissolved / 1_000_000_000_000
}

/// Bicarbonate leached at level h, from 1 on; 0 but in kind 55.
#[inline]
pub fn bicarbonate(site: &Site, h: i64) -> i64 {
    match site.kind {
        Kind::Tag55 => {
            let [percolation, p] = [site.percolation, site.carbon_dioxide].map(i64::from);
            up(percolation * p, 50 * h)
        }
        Kind::Tag52 | Kind::Tag53 | Kind::Tag54 => 0,
    }
}

impl Terms {
    /// The terms of a site that passes the checks, with the contents of its stand's entries.
    pub(crate) fn of(site: &Site, contents: &StandContents) -> Terms {
        let weathering = weathering(site);
        let available = weathering * i64::from(site.available_share) / 100;
        let percolation = i64::from(site.percolation);

        let (nitrogen_uptake, demand) = uptake(site, contents);
        let supply = i64::from(site.base_deposition) + available;
        let base_uptake = demand.min((supply - up(percolation, 10)).max(0));
        let aluminium_limit = 1500 * (supply - base_uptake) / i64::from(site.critical_ratio);

        let Found { level, compared } = search(i64::from(site.hydrogen_ceiling), |h| {
            aluminium(site, h) <= aluminium_limit
        });
        Terms {
            weathering,
            available,
            nitrogen_uptake,
            base_uptake,
            aluminium_limit,
            level,
            compared,
            acid_leaching: hydrogen(site, level) + aluminium(site, level)
                - bicarbonate(site, level),
            left: 1000 - denitrified(site),
            leaching: percolation * i64::from(site.leachate_nitrogen) / 100,
        }
    }

    /// B + W − Bu.
    pub fn base_supply(&self, site: &Site) -> i64 {
        i64::from(site.base_deposition) + self.weathering - self.base_uptake
    }

    /// CLmaxS, below 0 where rule 21 refuses the site.
    pub(crate) fn max_s(&self, site: &Site) -> i64 {
        self.base_supply(site) + self.acid_leaching
    }

    pub fn loads(&self, site: &Site) -> Loads {
        let max_s = self.max_s(site);
        let min_n = self.nitrogen_uptake + i64::from(site.immobilisation);
        Loads {
            max_s,
            min_n,
            max_n: min_n + 1000 * max_s / self.left,
            nut_n: min_n + 1000 * self.leaching / self.left,
        }
    }
}
