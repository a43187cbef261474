//! Counts of what was covered.

use crate::builds::Made;
use crate::case::{Build, Call, Case, Lookup, Outcome, Refine, CALLS, PLACINGS_OF_THREE};
use crate::fault::{Fault, WAYS};
use crate::features;
use crate::meetings::MEETINGS;
use crate::{refined, two_faults, zeros};
use paper::map;
use paper::refine::deepened;
use paper::Reply;
use std::collections::BTreeMap;

/// The sorts of offset in reply 9: length, version, root or depth, a leaf, leaves that stop short.
const OFFSETS: usize = 5;

/// The versions that a sheet must have been given with: those that are read, and others.
const VERSIONS: [u8; 5] = [0, 1, 2, 3, 255];

type Counted<K> = BTreeMap<K, u64>;

#[derive(Default)]
pub struct Tally {
    /// Labels of the cases, and their features.
    labels: Counted<&'static str>,
    features: Counted<&'static str>,
    /// By call, and then by code, whether the table has it or not.
    codes: [Counted<u32>; CALLS.len()],
    /// By call, and then by the version of its sheet, if the sheet's length agrees.
    versions: [Counted<u8>; CALLS.len()],
    /// By call, and then by the sort of offset in reply 9.
    offsets: [[u64; OFFSETS]; CALLS.len()],
    /// By call, and then by the way to pass the limit in reply 7.
    ways: [[u64; WAYS.len()]; CALLS.len()],
    /// Of lookups that were answered: outside, inside, undecided.
    answers: [u64; 3],
    /// Of builds that gave code 0.
    sides: [u64; 17],
    depths: [u64; 11],
    longest_map: u64,
    /// Of refines that gave code 0: by the new depth, and by the levels that were added.
    refined_to: [u64; 11],
    refined_by: [u64; 11],
    placings: [u64; PLACINGS_OF_THREE],
}

impl Tally {
    /// Counts a case by what the paper says of it.
    pub fn count(&mut self, made: &Made, expected: &Outcome) {
        let calls = made.case.calls() as u64;
        for label in &made.labels {
            *self.labels.entry(label).or_default() += calls;
        }
        self.placings[usize::from(made.case.placing())] += calls;
        for &reply in &expected.replies {
            self.count_reply(&made.case, reply);
        }
        match &made.case {
            Case::Check(_) | Case::Open(_) => (),
            Case::Build(build) => self.count_build(build, expected.replies[0]),
            Case::Refine(refine) => self.count_refine(refine, expected.replies[0]),
            Case::Lookup(lookup) => {
                self.count_features(zeros::of_lookup(lookup));
                for (&point, &reply) in lookup.points.iter().zip(&expected.replies) {
                    self.count_lookup(lookup, point, reply);
                }
            }
        }
    }

    fn count_reply(&mut self, case: &Case, reply: Reply) {
        let call = case.call() as usize;
        *self.codes[call].entry(reply.code).or_default() += 1;
        if let (Some([_, _, version, ..]), true) = (case.sheet(), reply.code != 1) {
            *self.versions[call].entry(*version).or_default() += 1;
        }
        if let (9, Some(map)) = (reply.code, case.map()) {
            let sort = match reply.number {
                0 => 0,
                4 => 1,
                5 => 2,
                offset if offset < map.len() as u64 => 3,
                _ => 4,
            };
            self.offsets[call][sort] += 1;
        }
        let fault = (reply.code == 7).then(|| Fault::of(case));
        if let Some(fault) = fault.flatten() {
            self.ways[call][fault.way()] += 1;
        }
    }

    fn count_build(&mut self, build: &Build, reply: Reply) {
        self.count_features(features::of_build(build));
        if reply.code == 0 {
            self.sides[usize::from(build.root.k)] += 1;
            self.depths[usize::from(build.root.d)] += 1;
            self.longest_map = self.longest_map.max(reply.number);
            self.count_features(vec![features::of_length(reply.number)]);
        }
    }

    fn count_refine(&mut self, refine: &Refine, reply: Reply) {
        self.count_features(refined::of_refine(refine, reply));
        let root = || map::root(&refine.map);
        if reply.code == 0 && deepened(&root(), refine.d).is_ok() {
            self.refined_to[usize::from(refine.d)] += 1;
            self.refined_by[usize::from(refine.d - root().d)] += 1;
            self.longest_map = self.longest_map.max(reply.number);
        }
    }

    fn count_lookup(&mut self, lookup: &Lookup, point: [i32; 3], reply: Reply) {
        self.count_features(features::of_point(lookup, point));
        if reply.code == 0 {
            self.answers[reply.number as usize] += 1;
        }
    }

    fn count_features(&mut self, found: Vec<&'static str>) {
        for feature in found {
            *self.features.entry(feature).or_default() += 1;
        }
    }

    pub fn add(&mut self, other: &Tally) {
        add_counted(&mut self.labels, &other.labels);
        add_counted(&mut self.features, &other.features);
        for call in CALLS {
            let call = call as usize;
            add_counted(&mut self.codes[call], &other.codes[call]);
            add_counted(&mut self.versions[call], &other.versions[call]);
            add_each(&mut self.offsets[call], &other.offsets[call]);
            add_each(&mut self.ways[call], &other.ways[call]);
        }
        add_each(&mut self.answers, &other.answers);
        add_each(&mut self.sides, &other.sides);
        add_each(&mut self.depths, &other.depths);
        add_each(&mut self.refined_to, &other.refined_to);
        add_each(&mut self.refined_by, &other.refined_by);
        add_each(&mut self.placings, &other.placings);
        self.longest_map = self.longest_map.max(other.longest_map);
    }

    /// The codes that a call gave.
    pub fn reached(&self, call: Call) -> Vec<u32> {
        self.codes[call as usize].keys().copied().collect()
    }

    /// Whether a call gave reply 9 with every sort of offset.
    pub fn reached_all_offsets(&self, call: Call) -> bool {
        self.offsets[call as usize].iter().all(|&count| count > 0)
    }

    /// Whether a call gave reply 7 for every way to pass the limit.
    pub fn reached_all_ways(&self, call: Call) -> bool {
        self.ways[call as usize].iter().all(|&count| count > 0)
    }

    /// Whether states of one face each met in every way.
    pub fn met_in_all_ways(&self) -> bool {
        MEETINGS.iter().all(|way| self.features.contains_key(way))
    }

    /// Whether maps were refined in every way, and refused with every two faults.
    pub fn refined_in_all_ways(&self) -> bool {
        let mut ways = refined::WAYS.iter();
        let mut pairs = two_faults::names();
        ways.all(|way| self.features.contains_key(way))
            && pairs.all(|pair| self.labels.contains_key(pair))
    }

    /// Whether a call was given a sheet of every version.
    pub fn reached_all_versions(&self, call: Call) -> bool {
        let given = &self.versions[call as usize];
        VERSIONS.iter().all(|version| given.contains_key(version))
    }

    /// Whether faces were 0 at an end of their bounds and at points on their leaf, in every way and in each version.
    pub fn met_all_zeros(&self) -> bool {
        let mut all = zeros::OF_BUILDS.iter().chain(&zeros::OF_LOOKUPS);
        all.all(|way| self.features.contains_key(way))
    }

    /// The number of calls, as in '20 builds, 3 lookups'.
    pub fn calls(&self) -> String {
        let counted = CALLS.map(|call| (self.codes[call as usize].values().sum::<u64>(), call));
        let made = counted.iter().filter(|(count, _)| *count > 0);
        let texts: Vec<String> = made
            .map(|(count, call)| format!("{count} {}", call.name()))
            .collect();
        texts.join(", ")
    }

    /// Prints the number of calls of each sort, one per line.
    pub fn print_sorts(&self) {
        println!("  calls by how they were made:");
        print_counted(&self.labels);
        println!("  features of the builds, refines and points:");
        print_counted(&self.features);
    }

    /// The number of calls with each version of the sheet, and with another.
    fn by_version(&self, call: Call) -> String {
        let given = &self.versions[call as usize];
        let counts = VERSIONS.map(|version| given.get(&version).copied().unwrap_or_default());
        let others = given.values().sum::<u64>() - counts.iter().sum::<u64>();
        let named = VERSIONS.iter().zip(counts);
        let texts: Vec<String> = named
            .map(|(version, count)| format!("{version}: {count}"))
            .collect();
        format!("{}, others: {others}", texts.join(", "))
    }

    /// Prints the outcomes of the calls.
    pub fn print_outcomes(&self) {
        println!("  outcomes of the calls:");
        for call in CALLS {
            let codes = self.codes[call as usize].iter();
            let texts: Vec<String> = codes
                .map(|(code, count)| format!("{code}: {count}"))
                .collect();
            println!("    {} by code: {}", call.name(), texts.join(", "));
        }
        for call in [Call::Check, Call::Build, Call::Refine, Call::Lookup] {
            println!("    {} by version: {}", call.name(), self.by_version(call));
        }
        for call in [Call::Refine, Call::Open, Call::Lookup] {
            let (name, offsets) = (call.name(), list(&self.offsets[call as usize]));
            println!("    {name} refused by 9 for length, version, root or depth, a leaf, leaves that stop short: {offsets}");
        }
        for call in [Call::Build, Call::Refine, Call::Lookup] {
            let (name, ways) = (call.name(), list(&self.ways[call as usize]));
            println!("    {name} refused by 7 for {}: {ways}", WAYS.join(", "));
        }
        println!("    outside, inside, undecided: {}", list(&self.answers));
        println!("    calls by placing of slices: {}", list(&self.placings));
        println!("    maps built by k, 0 to 16: {}", list(&self.sides));
        println!("    maps built by d, 0 to 10: {}", list(&self.depths));
        println!("    maps refined to d, 0 to 10: {}", list(&self.refined_to));
        println!(
            "    maps refined by levels, 0 to 10: {}",
            list(&self.refined_by)
        );
        println!("    longest map: {} bytes", self.longest_map);
    }
}

fn add_counted<K: Copy + Ord>(to: &mut Counted<K>, from: &Counted<K>) {
    for (&key, count) in from {
        *to.entry(key).or_default() += count;
    }
}

fn print_counted(counted: &Counted<&str>) {
    for (name, count) in counted {
        println!("    {name}: {count}");
    }
}

/// Adds counts elementwise.
pub fn add_each(to: &mut [u64], from: &[u64]) {
    for (total, count) in to.iter_mut().zip(from) {
        *total += count;
    }
}

fn list(counts: &[u64]) -> String {
    let texts: Vec<String> = counts.iter().map(u64::to_string).collect();
    texts.join(" ")
}

#[cfg(test)]
mod tests {
    use super::*;
    use crate::case::Lent;
    use crate::expect::of_reply;

    #[test]
    fn a_code_that_is_not_in_the_table_is_counted() {
        let (placing, bytes) = (0, vec![]);
        let case = Case::Check(Lent { placing, bytes });
        let labels = vec![];
        let mut tally = Tally::default();
        tally.count(&Made { labels, case }, &of_reply(paper::reply(99, 0)));
        assert_eq!(tally.reached(Call::Check), [99]);
    }
}
