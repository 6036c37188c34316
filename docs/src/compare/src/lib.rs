//! Inputs for the comparison, and the C interface of `docs/forest.h`.

pub mod files;
pub mod interface;
pub mod lists;
pub mod months;
pub mod random;
pub mod sites;
