//! Refining beside building, by the library's own answers (request 2026-01), whatever the paper says of each.
//!
//! A map that was built, refined to a depth, is the map built afresh at that depth: code, number and every byte of a buffer of the
//! same length. To build is to refine the one gray leaf that is the root. Any good map refined in two steps is the map refined at
//! once. And where a lookup in a map answers inside or outside, one in the refined map gives the same.

use crate::builds::{self, buffer, length};
use crate::case::{hex, Build, Case, Lookup, Outcome, Refine};
use crate::group::{on_two_servers, Setup};
use crate::plan::{self, Plan};
use crate::random::Random;
use crate::relations::Ask;
use crate::server::Server;
use crate::{carried, maps, other_leaves};
use paper::lookup::UNDECIDED;
use paper::map;
use paper::reply;
use paper::root::Root;

/// How often each was tested, and what is wrong.
#[derive(Default)]
pub struct Held {
    own: u64,
    /// Of these, refined to a greater depth.
    deeper: u64,
    gray: u64,
    /// Of both, refused.
    refused: u64,
    in_steps: u64,
    kept: u64,
    pub broken: Option<String>,
}

/// The number of points that are looked up in a map.
const POINTS: usize = 4;

/// Tests it on `cases` sheets, on two servers, up to one that is wrong.
pub fn run(setup: &Setup, cases: u64) -> Result<Held, String> {
    let hold = |number, server: &mut Server, held: &mut Held| {
        let mut random = Random::of_case(setup.seed, "afresh", number);
        held.hold(&mut random, &mut |case| server.ask(case))?;
        Ok(held.broken.is_none())
    };
    let [mut all, other] = on_two_servers(setup, cases, hold)?;
    all.own += other.own;
    all.deeper += other.deeper;
    all.gray += other.gray;
    all.refused += other.refused;
    all.in_steps += other.in_steps;
    all.kept += other.kept;
    all.broken = all.broken.or(other.broken);
    Ok(all)
}

/// A buffer: its length, and the seed of its bytes.
#[derive(Clone, Copy)]
struct Out {
    length: usize,
    seed: u64,
}

fn refine(plan: &Plan, map: &[u8], d: u8, out: Out) -> Case {
    Case::Refine(Refine {
        placing: 0,
        sheet: plan.bytes(),
        map: map.to_vec(),
        d,
        out_len: out.length,
        out_seed: out.seed,
    })
}

fn build(plan: &Plan, d: u8, out: Out) -> Case {
    Case::Build(Build {
        placing: 0,
        sheet: plan.bytes(),
        root: Root { d, ..plan.root },
        out_len: out.length,
        out_seed: out.seed,
    })
}

/// The map in a buffer, if the call gave one.
fn map_in(outcome: &Outcome) -> Option<&[u8]> {
    let given = outcome.replies[0];
    (given.code == 0).then(|| outcome.out.get(..given.number as usize))?
}

impl Held {
    fn hold(&mut self, random: &mut Random, ask: &mut Ask) -> Result<(), String> {
        let mut plan = match random.below(3) {
            0 => carried::plan(random.word(), random),
            _ => builds::sound(random),
        };
        if !plan.root.in_limits() {
            return Ok(());
        }
        let most = builds::most_leaves(random);
        let leaves = plan.choose_depth(random, most);
        self.beside_building(&plan, leaves, random, ask)?;
        if leaves > 0 {
            self.of_any_map(&plan, random, ask)?;
        }
        Ok(())
    }

    fn expect(&mut self, case: &Case, holds: bool, what: &str) {
        if !holds {
            let told = format!("{what}; replay {}", hex(&case.request()));
            self.broken = self.broken.take().or(Some(told));
        }
    }

    /// Builds a sheet at its depth, at which the map has so many leaves, and refines its maps of smaller depths.
    fn beside_building(
        &mut self,
        plan: &Plan,
        leaves: usize,
        random: &mut Random,
        ask: &mut Ask,
    ) -> Result<(), String> {
        let d = plan.root.d;
        let out = Out {
            length: buffer(length(leaves), random).1,
            seed: random.word() | 1,
        };
        let fresh = ask(&build(plan, d, out))?;
        let gray = other_leaves::all_gray(&Root { d: 0, ..plan.root });
        let from_gray = refine(plan, &gray, d, out);
        let is_same = ask(&from_gray)? == fresh;
        self.expect(&from_gray, is_same, "one gray leaf refined is not built");
        self.gray += 1;
        self.refused += u64::from(fresh.replies[0].code != 0);
        let from = random.between(0, d.into()) as u8;
        let enough = Out {
            length: length(leaves),
            seed: 1,
        };
        let built = ask(&build(plan, from, enough))?;
        if let Some(map) = map_in(&built) {
            let refined = refine(plan, map, d, out);
            let is_same = ask(&refined)? == fresh;
            self.expect(&refined, is_same, "refined is not built afresh");
            self.own += 1;
            self.deeper += u64::from(from < d);
            self.refused += u64::from(fresh.replies[0].code != 0);
        }
        Ok(())
    }

    /// Refines a good map, which may be no build's, at once and in two steps, and looks points up in it before and after.
    fn of_any_map(
        &mut self,
        plan: &Plan,
        random: &mut Random,
        ask: &mut Ask,
    ) -> Result<(), String> {
        let sheet = plan.sheet();
        let old = any_map(plan, random);
        let opened = map::read_for(&old, &sheet).map_err(|_| "a good map is refused")?;
        let wanted = plan.root.k.min(10);
        let most = opened.leaves.len() + builds::most_leaves(random);
        let (d, leaves) = plan::deepest_refined(&sheet, &opened, wanted, most);
        let out = Out {
            length: length(leaves) + random.below(3),
            seed: random.word() | 1,
        };
        let at_once = ask(&refine(plan, &old, d, out))?;
        let between = random.between(opened.root.d.into(), d.into()) as u8;
        let first = refine(plan, &old, between, out);
        let half_way = ask(&first)?;
        let Some(map) = map_in(&half_way) else {
            self.expect(&first, false, "a good map is refused");
            return Ok(());
        };
        let second = refine(plan, map, d, out);
        let is_same = ask(&second)? == at_once;
        self.expect(&second, is_same, "two steps are not one");
        self.in_steps += 1;
        if let Some(new) = map_in(&at_once) {
            self.keeps(plan, [&old, new], random, ask)?;
        }
        Ok(())
    }

    fn keeps(
        &mut self,
        plan: &Plan,
        maps: [&[u8]; 2],
        random: &mut Random,
        ask: &mut Ask,
    ) -> Result<(), String> {
        let points: Vec<_> = (0..POINTS)
            .map(|_| maps::point(&plan.root, random))
            .collect();
        let [old, new] = maps.map(|map| {
            Case::Lookup(Lookup {
                placing: 0,
                sheet: plan.bytes(),
                map: map.to_vec(),
                points: points.clone(),
            })
        });
        let answers = [ask(&old)?, ask(&new)?];
        for (before, after) in answers[0].replies.iter().zip(&answers[1].replies) {
            if *before != reply(0, UNDECIDED) {
                self.kept += u64::from(before.code == 0);
                self.expect(&new, before == after, "a refined map answers otherwise");
            }
        }
        Ok(())
    }

    /// The check, and whether it is passed.
    pub fn line(&self) -> (String, bool) {
        let what = format!(
            "refined: {} maps that were built, {} of them to a greater depth, and {} of one gray leaf, are those built afresh, {} of them refused alike; \
             {} maps in two steps are those at once; {} answers stay",
            self.own, self.deeper, self.gray, self.refused, self.in_steps, self.kept
        );
        let counts = [
            self.own,
            self.deeper,
            self.gray,
            self.refused,
            self.in_steps,
            self.kept,
        ];
        (what, self.broken.is_none() && !counts.contains(&0))
    }
}

/// A good map over the root of a plan: one of its own of a smaller depth, with or without leaves that are made gray or to stand, or
/// one of random leaves.
fn any_map(plan: &Plan, random: &mut Random) -> Vec<u8> {
    let faces = maps::faces(&plan.sheet());
    let d = random.between(0, plan.root.d.into()) as u8;
    let root = Root { d, ..plan.root };
    let own = paper::build::map_of(&plan.bytes(), &root).expect("it is built");
    let opened = map::read(&own).expect("it opens");
    match random.below(4) {
        0 => maps::over(&root, &faces, random),
        1 => other_leaves::grayed(&opened, random),
        2 => other_leaves::decided(&opened, &faces, random),
        _ => own,
    }
}

#[cfg(test)]
mod tests {
    use super::*;
    use crate::case::Call;
    use crate::expect::by_paper;
    use paper::map::{HEADER, LEAF};

    /// Tests some cases answered by the paper, with the outcomes of refines, or of the maps in them, changed.
    fn held(call: Call, change: fn(&mut Outcome)) -> Held {
        let mut held = Held::default();
        for number in 0..60 {
            let mut random = Random::of_case(1, "afresh", number);
            let mut ask = |case: &Case| {
                let mut outcome = by_paper(case);
                if case.call() == call {
                    change(&mut outcome);
                }
                Ok(outcome)
            };
            held.hold(&mut random, &mut ask).unwrap();
        }
        held
    }

    #[test]
    fn the_paper_does_so() {
        let held = held(Call::Refine, |_| ());
        assert_eq!(held.broken, None);
        assert!(held.line().1, "{}", held.line().0);
    }

    #[test]
    fn other_refined_maps_are_noticed() {
        let other_number = |outcome: &mut Outcome| outcome.replies[0].number += 1;
        assert!(held(Call::Refine, other_number).broken.is_some());
        let later = |outcome: &mut Outcome| {
            if let Some(last) = outcome.out.last_mut() {
                *last ^= 1;
            }
        };
        assert!(held(Call::Refine, later).broken.is_some());
        let refused = |outcome: &mut Outcome| {
            if outcome.replies[0].code == 8 {
                outcome.replies[0] = reply(7, 0);
            }
        };
        assert!(held(Call::Refine, refused).broken.is_some());
    }

    /// Each gray leaf of the new map becomes white.
    #[test]
    fn other_leaves_are_noticed() {
        let whitened = |outcome: &mut Outcome| {
            if let (0, number) = (outcome.replies[0].code, outcome.replies[0].number) {
                let leaves = &mut outcome.out[HEADER..number as usize];
                let gray = leaves.chunks_mut(LEAF).filter(|leaf| leaf[1] == 4);
                gray.for_each(|leaf| leaf[1] = 0);
            }
        };
        assert!(held(Call::Refine, whitened).broken.is_some());
    }

    #[test]
    fn other_answers_are_noticed() {
        // White and black exchanged, in maps of an odd length alone.
        let mut turn = 0;
        let mut held = Held::default();
        for number in 0..60 {
            let mut random = Random::of_case(1, "afresh", number);
            let mut ask = |case: &Case| {
                let mut outcome = by_paper(case);
                if case.call() == Call::Lookup {
                    turn += 1;
                    let decided = |given: &&mut paper::Reply| given.code == 0 && given.number < 2;
                    let all = outcome.replies.iter_mut().filter(decided);
                    all.for_each(|given| given.number ^= turn % 2);
                }
                Ok(outcome)
            };
            held.hold(&mut random, &mut ask).unwrap();
        }
        assert!(held.broken.is_some());
    }
}
