//! Equal records as a version 1 and a version 2 sheet, which are two sheets (request 2026-07), given to the same calls.
//!
//! A check gives both the same reply. A build and a refine refuse both alike, but for reply 8: their maps may differ in length. A lookup
//! in any map refuses both alike, and its answers differ exactly if the leaf that holds the point is terminal and the operand
//! of its face is 0 there: then the face holds by version 1 alone.

use crate::case::{hex, Case, Lent, Lookup, Refine};
use crate::group::{on_two_servers, Setup};
use crate::plan;
use crate::random::Random;
use crate::relations::{self, Ask};
use crate::server::Server;
use crate::zeros;
use paper::colour::TERMINAL;
use paper::lookup::{self, INSIDE, OUTSIDE};
use paper::sheet::{Version, VERSIONS};
use paper::{reply, Reply};

/// Longer maps are not built, in either version.
const MOST_LEAVES: usize = 250;

/// The sheet in the other version: 2 for 1, and 1 for 2.
pub fn other(sheet: &[u8]) -> Vec<u8> {
    let mut turned = sheet.to_vec();
    turned[2] ^= 3;
    turned
}

/// How often each call was compared, how often both were refused, and how many answers differ; and what is wrong.
#[derive(Default)]
pub struct Held {
    checks: u64,
    builds: u64,
    refines: u64,
    lookups: u64,
    refused: u64,
    differ: u64,
    pub broken: Option<String>,
}

/// Compares the replies to `cases` builds and lookups, on two servers, up to a case that is wrong.
pub fn run(setup: &Setup, cases: u64) -> Result<Held, String> {
    let hold = |number, server: &mut Server, held: &mut Held| {
        let mut random = Random::of_case(setup.seed, "versions", number);
        let made = relations::any(number, &mut random);
        held.hold(&made.case, &mut |case| server.ask(case))?;
        Ok(held.broken.is_none())
    };
    let [mut all, other] = on_two_servers(setup, cases, hold)?;
    all.checks += other.checks;
    all.builds += other.builds;
    all.refines += other.refines;
    all.lookups += other.lookups;
    all.refused += other.refused;
    all.differ += other.differ;
    all.broken = all.broken.or(other.broken);
    Ok(all)
}

/// The bytes with this version, if there are enough to have one.
fn with_version(sheet: &[u8], version: Version) -> Vec<u8> {
    let mut other = sheet.to_vec();
    if let Some(byte) = other.get_mut(2) {
        *byte = version as u8;
    }
    other
}

/// The case with its sheet in each version. A build and a refine have a depth at which neither map is too long.
fn in_both(case: &Case) -> [Case; 2] {
    let mut case = case.clone();
    for version in VERSIONS {
        match &mut case {
            Case::Build(build) => {
                let sheet = with_version(&build.sheet, version);
                build.root = plan::shallow(&sheet, &build.root, MOST_LEAVES);
            }
            Case::Refine(Refine { sheet, map, d, .. }) => {
                let sheet = with_version(sheet, version);
                *d = plan::shallow_refined(&sheet, map, *d, MOST_LEAVES);
            }
            _ => (),
        }
    }
    VERSIONS.map(|version| case.with_sheet(|sheet| *sheet = with_version(sheet, version)))
}

impl Held {
    fn hold(&mut self, case: &Case, ask: &mut Ask) -> Result<(), String> {
        let both = in_both(case);
        let checked = both.each_ref().map(|case| {
            let placing = case.placing();
            let bytes = case.sheet().unwrap_or_default().to_vec();
            Case::Check(Lent { placing, bytes })
        });
        self.compare(&checked, ask)?;
        self.compare(&both, ask)
    }

    /// Gives a case in each version to the library.
    fn compare(&mut self, both: &[Case; 2], ask: &mut Ask) -> Result<(), String> {
        let [one, two] = both.each_ref().map(ask);
        let (one, two) = (one?.replies, two?.replies);
        for (at, two) in two.into_iter().enumerate() {
            let replies = [one[at], two];
            let holds = match &both[0] {
                Case::Check(_) | Case::Open(_) => self.of_check(replies),
                Case::Build(_) => self.of_build(replies),
                Case::Refine(_) => self.of_refine(replies),
                Case::Lookup(lookup) => self.of_lookup(lookup, at, replies),
            };
            if !holds {
                let told = format!("{replies:?}; replay {}", hex(&both[1].request()));
                self.broken = self.broken.take().or(Some(told));
            }
        }
        Ok(())
    }

    /// The same refusal of both, or none of either.
    fn is_refused_alike(&mut self, replies: [Reply; 2], is_refusal: fn(&Reply) -> bool) -> bool {
        let [one, two] = replies;
        self.refused += u64::from(is_refusal(&one));
        one == two || !replies.iter().any(is_refusal)
    }

    fn of_check(&mut self, [one, two]: [Reply; 2]) -> bool {
        self.checks += 1;
        self.refused += u64::from(one.code != 0);
        one == two
    }

    fn of_build(&mut self, replies: [Reply; 2]) -> bool {
        self.builds += 1;
        self.is_refused_alike(replies, |reply| ![0, 8].contains(&reply.code))
    }

    fn of_refine(&mut self, replies: [Reply; 2]) -> bool {
        self.refines += 1;
        self.is_refused_alike(replies, |reply| ![0, 8].contains(&reply.code))
    }

    fn of_lookup(&mut self, lookup: &Lookup, at: usize, replies: [Reply; 2]) -> bool {
        self.lookups += 1;
        let [one, two] = replies;
        let opened = lookup::open(&lookup.sheet, &lookup.map).ok();
        let class = opened.and_then(|opened| zeros::on_its_face(&opened, lookup.points[at]));
        let is_alike = self.is_refused_alike(replies, |reply| reply.code != 0);
        self.differ += u64::from(class.is_some());
        let answers = match class {
            None => return is_alike && one == two,
            Some(TERMINAL) => [INSIDE, OUTSIDE],
            Some(_) => [OUTSIDE, INSIDE],
        };
        replies == answers.map(|answer| reply(0, answer))
    }

    /// The check, and whether it is passed.
    pub fn line(&self) -> (String, bool) {
        let what = format!(
            "versions, calls: {} checks, {} builds, {} refines and {} lookups of equal records in both versions, {} refused alike; \
             {} answers differ, exactly those at points on the face of their leaf",
            self.checks, self.builds, self.refines, self.lookups, self.refused, self.differ
        );
        let counts = [
            self.checks,
            self.builds,
            self.refines,
            self.lookups,
            self.refused,
            self.differ,
        ];
        (what, self.broken.is_none() && !counts.contains(&0))
    }
}

#[cfg(test)]
mod tests {
    use super::*;
    use crate::case::Call;
    use crate::expect::by_paper;

    /// Compares some cases, up to one that is wrong.
    fn held_by(ask: &mut Ask) -> Held {
        let mut held = Held::default();
        for number in 0..300 {
            let made = relations::any(number, &mut Random::of_case(1, "versions", number));
            held.hold(&made.case, ask).unwrap();
            if held.broken.is_some() {
                break;
            }
        }
        held
    }

    /// By the paper, with the replies of one call to version 2 sheets changed.
    fn held(call: Call, change: fn(&mut Reply)) -> Held {
        held_by(&mut |case: &Case| {
            let mut outcome = by_paper(case);
            let is_second = matches!(case.sheet(), Some([_, _, 2, ..]));
            if case.call() == call && is_second {
                outcome.replies.iter_mut().for_each(change);
            }
            Ok(outcome)
        })
    }

    #[test]
    fn the_paper_answers_as_it_must() {
        let held = held(Call::Check, |_| ());
        assert_eq!(held.broken, None);
        assert!(held.line().1, "{}", held.line().0);
    }

    #[test]
    fn a_refusal_of_one_version_alone_is_noticed() {
        for call in [Call::Check, Call::Build, Call::Refine, Call::Lookup] {
            assert!(held(call, |given| *given = reply(2, 0)).broken.is_some());
            let accepted = |given: &mut Reply| given.code = 0;
            assert!(held(call, accepted).broken.is_some());
        }
    }

    #[test]
    fn another_number_is_noticed() {
        let other_number = |given: &mut Reply| given.number += u64::from(given.code == 4);
        assert!(held(Call::Build, other_number).broken.is_some());
        let other_end = |given: &mut Reply| given.number ^= u64::from(given.code == 7);
        assert!(held(Call::Lookup, other_end).broken.is_some());
        let later = |given: &mut Reply| given.number += 3 * u64::from(given.code == 9);
        assert!(held(Call::Lookup, later).broken.is_some());
        let turned = |given: &mut Reply| {
            if given.code == 0 && given.number < 2 {
                given.number ^= 1;
            }
        };
        assert!(held(Call::Lookup, turned).broken.is_some());
    }

    /// A library that reads both versions alike, by either rule.
    #[test]
    fn one_rule_for_both_versions_is_noticed() {
        for version in VERSIONS {
            let held = held_by(&mut |case: &Case| {
                let alike = case.with_sheet(|sheet| *sheet = with_version(sheet, version));
                Ok(by_paper(&alike))
            });
            assert!(held.broken.is_some());
        }
    }
}
