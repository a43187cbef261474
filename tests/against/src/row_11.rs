//! Builds by document 01's table with row 11, which tests the limit in each smaller cube. The library has no such
//! test, and gives the same replies.

use crate::builds;
use crate::case::Case;
use crate::expect::of_map;
use crate::group::{on_two_servers, Group, Make, Setup};
use crate::server::Server;
use paper::bounds::FURTHEST;
use paper::row_11::{self, Tested, CODE};

/// What was compared, and the first case in which the library and the table differ: its group and its number.
#[derive(Default)]
pub struct Compared {
    pub builds: u64,
    pub tested: Tested,
    /// How often the row refused.
    pub refused: u64,
    pub different: Option<(&'static str, u64)>,
}

impl Compared {
    fn add(&mut self, other: &Compared) {
        self.builds += other.builds;
        self.tested.cubes += other.tested.cubes;
        self.tested.at_limit += other.tested.at_limit;
        self.refused += other.refused;
        let both = self.different.into_iter().chain(other.different);
        self.different = both.min();
    }
}

/// Compares all builds of two groups and then, by a limit that is one less, those of the first.
pub fn run(setup: &Setup, [builds, damaged]: [Group; 2]) -> Result<[Compared; 2], String> {
    // Build 0 has one of the largest maps, which takes long. An ordinary one takes its place.
    let make: Make = |number, random| builds::any(number.max(1), random);
    let builds = Group { make, ..builds };
    let mut all = compare(FURTHEST, &builds, setup)?;
    all.add(&compare(FURTHEST, &damaged, setup)?);
    let lower = compare(FURTHEST - 1, &builds, setup)?;
    Ok([all, lower])
}

/// Gives the builds of a group to the library and to the table, with this limit over smaller cubes, up to a difference.
fn compare(limit: i128, group: &Group, setup: &Setup) -> Result<Compared, String> {
    let ask = |number, server: &mut Server, all: &mut Compared| {
        let made = group.case(setup.seed, number);
        let Case::Build(asked) = &made.case else {
            return Ok(true);
        };
        let (map, tested) = row_11::map_of(limit, &asked.sheet, &asked.root);
        let refused = matches!(map, Err(refusal) if refusal.code == CODE);
        let same = server.ask(&made.case) == Ok(of_map(asked, map));
        all.add(&Compared {
            builds: 1,
            tested,
            refused: u64::from(refused),
            different: (!same).then_some((group.name, number)),
        });
        Ok(same)
    };
    let [mut all, other] = on_two_servers(setup, group.cases, ask)?;
    all.add(&other);
    Ok(all)
}
