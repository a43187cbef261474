//! Builds over which carrying down can go wrong, and refines, by a plain program that carries down, and what the builds hand down.

use crate::carrying::outcome;
use crate::expect::by_paper;
use crate::group::{on_two_servers, Group, Setup};
use crate::handed::WAYS;
use crate::steps::STEPS;
use crate::tally::add_each;

/// What was compared, in how many builds each way occurred, and the first case in which the program and the paper differ.
#[derive(Default)]
pub struct Found {
    cases: u64,
    ways: [u64; WAYS.len()],
    different: Option<u64>,
}

/// Compares the program with the paper. The library is not asked: the same cases are compared with the paper before.
pub fn run(setup: &Setup, group: &Group) -> Result<Found, String> {
    let compare = |number, _: &mut _, found: &mut Found| {
        let case = group.case(setup.seed, number).case;
        let (given, ways) = outcome(&case, &STEPS);
        let same = given == by_paper(&case);
        found.add(&Found {
            cases: 1,
            ways: ways.map(u64::from),
            different: (!same).then_some(number),
        });
        Ok(same)
    };
    let [mut all, other] = on_two_servers(setup, group.cases, compare)?;
    all.add(&other);
    Ok(all)
}

impl Found {
    fn add(&mut self, other: &Found) {
        self.cases += other.cases;
        add_each(&mut self.ways, &other.ways);
        let both = self.different.into_iter().chain(other.different);
        self.different = both.min();
    }

    /// Prints in how many builds each way occurred.
    pub fn print(&self) {
        println!("  of the builds of carried:");
        for (way, count) in WAYS.iter().zip(self.ways) {
            println!("    {way}: {count}");
        }
    }

    fn found(&self) -> String {
        match self.different {
            Some(number) => format!("a difference in case {number}"),
            None => "no difference".into(),
        }
    }

    pub fn is_same(&self) -> bool {
        self.different.is_none()
    }

    /// The line of the refines.
    pub fn line_along(&self) -> String {
        let (cases, found) = (self.cases, self.found());
        format!(
            "carried along: {cases} refines by the same program, down the tree of the map, {found}"
        )
    }

    pub fn line(&self) -> (String, bool) {
        let met = self.ways.iter().filter(|&&count| count > 0).count();
        let what = format!(
            "carried down: {} builds by a plain program, {}, {met} of {} ways met",
            self.cases,
            self.found(),
            WAYS.len()
        );
        (what, self.is_same() && met == WAYS.len())
    }
}
