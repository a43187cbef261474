//! How many cases a run has, and its groups.

use crate::group::{Group, Make};
use crate::lookups::{self, POINTS};
use crate::{alone, builds, carried, ends, every_byte, products, refines};

/// The number of random calls of each sort.
pub struct Sizes {
    pub checks: u64,
    pub builds: u64,
    pub refines: u64,
    pub opens: u64,
    pub lookups: u64,
}

impl Sizes {
    /// The number of damaged sheets, and of damaged maps, besides those with a single byte changed.
    fn damaged(&self) -> u64 {
        self.builds / 5
    }

    /// The number of builds over which carrying down can go wrong.
    fn carried(&self) -> u64 {
        self.builds / 5
    }

    /// The number of builds and lookups that the relations between calls are tested on.
    pub fn related(&self) -> u64 {
        self.builds / 4
    }

    /// The number of sheets whose refined maps are compared with those built afresh.
    pub fn afresh(&self) -> u64 {
        self.refines / 10
    }

    /// The number of sheets that demand 3 is tested on.
    pub fn sheets(&self) -> u64 {
        self.builds / 50
    }

    /// The number of sheets whose maps by the rule before request 2026-03 are tested.
    pub fn sheets_before(&self) -> u64 {
        self.builds / 80
    }

    /// The number of maps with a leaf turned over.
    pub fn turned_over(&self) -> u64 {
        self.builds / 200
    }
}

/// The groups that are compared with the paper.
pub fn groups(sizes: &Sizes) -> [Group; 10] {
    let group = |name, make: Make, cases| Group { name, make, cases };
    let lookup_cases = sizes.lookups.div_ceil(POINTS as u64);
    let sheet_cases = every_byte::sheet_cases() + sizes.damaged();
    let map_cases = every_byte::map_cases() + sizes.damaged();
    [
        group("checks", alone::check, sizes.checks),
        group("builds", builds::any, sizes.builds),
        group("refines", refines::any, sizes.refines),
        group("opens", alone::open, sizes.opens),
        group("lookups", lookups::any, lookup_cases),
        group("damaged sheets", every_byte::sheets, sheet_cases),
        group("damaged maps", every_byte::maps, map_cases),
        group("products", products::any, products::cases()),
        group("ends", ends::any, ends::cases()),
        group("carried", carried::any, sizes.carried()),
    ]
}
