//! Critical loads, exceedances and verdicts of forest sites, as the customer's documents state them, with the pages, the rain
//! sampler, the hydrogen search, the temperature, the species list, the conversion, the reserves and the bicarbonate of
//! near-neutral soils. Every call that takes a file, a record or a site takes the bytes of the list after it.
//!
//! Numbers are `i64` throughout, but for those of which t is worked out: the greatest product, Q × K × h³, is 3.75 × 10¹⁸.

mod convert;
mod judgement;
mod level;
mod listing;
mod pages;
mod record;
mod refusal;
mod sampler;
mod site;
mod species;
mod temperature;
mod terms;
mod whole;

pub use convert::convert;
pub use judgement::{judge, Judgement, Verdict};
pub use level::{level, search, Found};
pub use listing::{list, report};
pub use pages::pages;
pub use record::{read_record, rewrite, write_record};
pub use refusal::{Refusal, Rule};
pub use sampler::{months_from_bytes, sample, year, Month, Reading, Sampled};
pub use site::{check, Entry, Kind, Site, EIGHT_DEGREES};
pub use species::check_list;
pub use temperature::temperature_factor;
pub use terms::{aluminium, bicarbonate, hydrogen, loads, terms, texture_class, Loads, Terms};
