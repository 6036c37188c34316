//! Whether the balances behind a mark close, each choice tried.

use forest::{aluminium, bicarbonate, hydrogen, terms, Site};

/// Whether all balances close at a site, judged or refused by 21: every sum of what is taken up and immobilised is tried, with the
/// greatest net leaching, which may be below 0, of every allowed level from 1 on. At a reserve nothing is taken up.
pub fn balances_close(site: &Site, list: &[u8]) -> bool {
    // The carbon dioxide counts in the net alone.
    let without_loss = Site {
        carbon_dioxide: 0,
        ..*site
    };
    let terms = terms(&without_loss, list).expect("a site that passes all checks but 21");
    let [s, n, b] = [site.sulphur, site.nitrogen, site.base_deposition].map(i64::from);
    let (uptake, base_uptake) = match site.entries {
        0 => (0, 0),
        _ => (terms.nitrogen_uptake, terms.base_uptake),
    };
    let limit = 1500 * (b + terms.available - base_uptake) / i64::from(site.critical_ratio);
    let net = (1..=i64::from(site.hydrogen_ceiling))
        .filter(|&h| aluminium(site, h) <= limit)
        .map(|h| hydrogen(site, h) + aluminium(site, h) - bicarbonate(site, h))
        .max()
        .expect("level 1 is allowed");
    let kept = 0..=n.min(uptake + i64::from(site.immobilisation));
    kept.map(|kept| terms.left * (n - kept))
        .filter(|left| *left <= 1000 * terms.leaching)
        .any(|left| 1000 * s + left <= 1000 * (b + terms.weathering - base_uptake + net))
}

/// Whether any pair closes at such a site. None asks less of it than that of no deposition.
pub fn any_pair_closes(site: &Site, list: &[u8]) -> bool {
    let without_deposition = Site {
        sulphur: 0,
        nitrogen: 0,
        ..*site
    };
    balances_close(&without_deposition, list)
}
