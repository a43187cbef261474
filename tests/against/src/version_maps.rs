//! The maps of equal records in both versions, over one root and to one depth.
//!
//! Within each version no white leaf touches a black one. They are two sheets, so a white leaf of one map may touch a black leaf
//! of the other: at each point that the two share, a face of the solid is 0. Where the maps differ, the bounds of a face of
//! the solid begin or end at 0 over the cube; where two answers differ, a face of the solid is 0 at the point.

use crate::before_03::whole_points;
use crate::case::{hex, Case, Lookup};
use crate::demand3::{self, built, of_class, touching, Built};
use crate::demand3_run::note;
use crate::group::{on_two_servers, Setup};
use crate::plan::{self, Plan};
use crate::random::Random;
use crate::rooms;
use crate::server::Server;
use crate::tally::add_each;
use crate::zeros;
use paper::colour::{BLACK, WHITE};
use paper::fractions::{Point, Values};
use paper::lookup::UNDECIDED;
use paper::root::Cube;
use paper::sheet::{Sheet, VERSIONS};
use paper::{reply, Reply};

/// The most leaves of a map.
const MOST_LEAVES: usize = 600;

/// What was counted, and what is wrong: with the cubes that differ, with the answers, and with the leaves that touch.
#[derive(Default)]
pub struct Found {
    maps: u64,
    alike: u64,
    different: u64,
    answers: u64,
    answers_differ: u64,
    /// Pairs of a white and a black leaf of one version.
    pairs: u64,
    /// Black leaves of version 1 that touch white ones of version 2, and the other way round.
    touches: [u64; 2],
    cube: Option<String>,
    answer: Option<String>,
    touch: Option<String>,
}

/// Compares the maps of `sheets` sheets, on two servers.
pub fn run(setup: &Setup, sheets: u64) -> Result<Found, String> {
    let hold = |number, server: &mut Server, found: &mut Found| {
        let mut random = Random::of_case(setup.seed, "version maps", number);
        found.one_sheet(&mut random, server).map(|()| true)
    };
    let [mut all, other] = on_two_servers(setup, sheets, hold)?;
    all.add(other);
    Ok(all)
}

/// A sheet of demand 3 in each version, or one whose walls lie on planes of cubes, over one root, to a depth at which neither
/// map is too long.
fn two_plans(random: &mut Random) -> [Plan; 2] {
    let plan = match random.below(4) {
        0 => rooms::planar(random),
        _ => demand3::sheet(random),
    };
    let mut both = VERSIONS.map(|version| Plan {
        version,
        ..plan.clone()
    });
    let depth =
        |plan: &Plan| plan::deepest(&plan.sheet(), &plan.root, plan.root.k.min(10), MOST_LEAVES).0;
    let d = both.iter().map(depth).min().expect("there are two");
    both.iter_mut().for_each(|plan| plan.root.d = d);
    both
}

/// Where two maps of one root and depth differ: the larger cube of two different leaves at one place. And the number of leaves
/// that are alike.
fn different(one: &Built, two: &Built) -> (Vec<Cube>, u64) {
    let volume = |cube: &Cube| cube.side.pow(3);
    let (mut cubes, mut alike) = (Vec::new(), 0);
    let mut rest = [one.leaves.iter().peekable(), two.leaves.iter().peekable()];
    while let [Some(&a), Some(&b)] = rest.each_mut().map(|leaves| leaves.peek().copied()) {
        let larger = if a.0.side >= b.0.side { a.0 } else { b.0 };
        if a == b {
            alike += 1;
        } else {
            cubes.push(larger);
        }
        for leaves in &mut rest {
            let mut left = volume(&larger);
            while left > 0 {
                left -= leaves.next().map_or(left, |(cube, _)| volume(cube));
            }
        }
    }
    (cubes, alike)
}

/// A whole point that two closed cubes share, if they touch.
fn shared(a: &Cube, b: &Cube) -> Option<[i32; 3]> {
    let corner = [0, 1, 2].map(|axis| a.low[axis].max(b.low[axis]) as i32);
    a.touches(b).then_some(corner)
}

fn is_on_face(sheet: &Sheet, point: [i32; 3]) -> bool {
    zeros::is_among(sheet, &Values::at(sheet, &Point::whole(point)))
}

impl Found {
    fn add(&mut self, other: Found) {
        self.maps += other.maps;
        self.alike += other.alike;
        self.different += other.different;
        self.answers += other.answers;
        self.answers_differ += other.answers_differ;
        self.pairs += other.pairs;
        add_each(&mut self.touches, &other.touches);
        self.cube = self.cube.take().or(other.cube);
        self.answer = self.answer.take().or(other.answer);
        self.touch = self.touch.take().or(other.touch);
    }

    fn one_sheet(&mut self, random: &mut Random, server: &mut Server) -> Result<(), String> {
        let plans = two_plans(random);
        let mut build = |plan| built(plan, MOST_LEAVES, server);
        let maps = [build(&plans[0])?, build(&plans[1])?];
        let [Some(one), Some(two)] = maps else {
            return match maps {
                [None, None] => Ok(()),
                _ => Err(format!(
                    "refused in one version: {}",
                    hex(&plans[0].bytes())
                )),
            };
        };
        self.compares(&plans[0], [&one, &two]);
        self.touches(&plans[0], [&one, &two]);
        let points = whole_points(&one, random);
        let mut ask = |plan: &Plan, map: &Built| {
            let outcome = server.ask(&Case::Lookup(Lookup {
                placing: 0,
                sheet: plan.bytes(),
                map: map.bytes.clone(),
                points: points.clone(),
            }));
            outcome.map(|outcome| outcome.replies)
        };
        let replies = [ask(&plans[0], &one)?, ask(&plans[1], &two)?];
        for (at, &point) in points.iter().enumerate() {
            let both = replies.each_ref().map(|replies| replies[at]);
            self.answers(&plans[0], point, both);
        }
        Ok(())
    }

    /// The maps differ only in cubes over which the bounds of a face begin or end at 0.
    fn compares(&mut self, plan: &Plan, [one, two]: [&Built; 2]) {
        let (cubes, alike) = different(one, two);
        self.maps += 1;
        self.alike += alike;
        self.different += cubes.len() as u64;
        if let Some(cube) = cubes
            .iter()
            .find(|cube| !zeros::is_over(&plan.sheet(), cube))
        {
            note(&mut self.cube, plan, format!("{cube:?}"));
        }
    }

    /// White and black touch in neither map; of two maps they touch only where a face is 0.
    fn touches(&mut self, plan: &Plan, maps: [&Built; 2]) {
        for map in maps {
            if let Some(pair) = touching(&map.leaves, &map.leaves, &mut self.pairs) {
                note(&mut self.touch, plan, format!("in one version: {pair:?}"));
            }
        }
        let sheet = plan.sheet();
        for (at, [black, white]) in [maps, [maps[1], maps[0]]].into_iter().enumerate() {
            let blacks = of_class(&black.leaves, BLACK);
            for white in of_class(&white.leaves, WHITE) {
                for point in blacks.iter().filter_map(|black| shared(black, &white)) {
                    self.touches[at] += 1;
                    if !is_on_face(&sheet, point) {
                        note(&mut self.touch, plan, format!("off all faces: {point:?}"));
                    }
                }
            }
        }
    }

    /// Two answers by outside or inside differ only where a face is 0.
    fn answers(&mut self, plan: &Plan, point: [i32; 3], [one, two]: [Reply; 2]) {
        self.answers += 1;
        let is_decided = |given: Reply| given.code == 0 && given != reply(0, UNDECIDED);
        if is_decided(one) && is_decided(two) && one != two {
            self.answers_differ += 1;
            if !is_on_face(&plan.sheet(), point) {
                note(
                    &mut self.answer,
                    plan,
                    format!("{point:?}: {one:?}, {two:?}"),
                );
            }
        }
        if one.code != two.code {
            note(
                &mut self.answer,
                plan,
                format!("{point:?}: {one:?}, {two:?}"),
            );
        }
    }

    pub fn print(&self) {
        for told in self.cube.iter().chain(&self.answer).chain(&self.touch) {
            println!("VERSIONS: {told}");
        }
    }

    /// Each check, and whether it is passed.
    pub fn lines(&self) -> [(String, bool); 3] {
        let [one, two] = self.touches;
        [
            (
                format!(
                    "versions, maps: {} maps in both versions, {} leaves alike, {} cubes differ, each with bounds of a face that begin or end at 0",
                    self.maps, self.alike, self.different
                ),
                self.cube.is_none() && self.alike > 0 && self.different > 0,
            ),
            (
                format!(
                    "versions, answers: {} points looked up in both, {} decided in both and not alike, each where a face is 0",
                    self.answers, self.answers_differ
                ),
                self.answer.is_none() && self.answers_differ > 0,
            ),
            (
                format!(
                    "versions, touch: none of {} white and black of one version; {one} black of version 1 touch white of version 2, \
                     and {two} white of version 1 black of version 2, each where a face is 0",
                    self.pairs
                ),
                self.touch.is_none() && one > 0 && two > 0,
            ),
        ]
    }
}

#[cfg(test)]
mod tests {
    use super::*;
    use crate::wrong_versions::{zero_in, zero_not_out};
    use paper::build::{map_by, Colouring};
    use paper::colour::{self, Colour};

    /// What is found of some sheets, with the maps of version 2 by another colouring.
    fn found(colouring: &Colouring) -> Found {
        let mut found = Found::default();
        for number in 0..80 {
            let mut random = Random::of_case(1, "version maps", number);
            let mut plans = two_plans(&mut random);
            let Plan { root, .. } = plans[1];
            let d = plan::deepest_by(colouring, &plans[1].sheet(), &root, root.d, MOST_LEAVES).0;
            plans.iter_mut().for_each(|plan| plan.root.d = d);
            let map = |plan: &Plan, colouring: &Colouring| {
                let bytes = map_by(colouring, &plan.sheet(), &plan.root).ok()?;
                Built::read(bytes, &plan.sheet()).ok()
            };
            let maps = [map(&plans[0], &colour::colour), map(&plans[1], colouring)];
            if let [Some(one), Some(two)] = maps {
                found.compares(&plans[0], [&one, &two]);
                found.touches(&plans[0], [&one, &two]);
            }
        }
        found
    }

    #[test]
    fn the_paper_keeps_them() {
        let found = found(&colour::colour);
        let [maps, _, touch] = found.lines();
        assert!(maps.1, "{}", maps.0);
        assert!(touch.1, "{}", touch.0);
    }

    /// Without a difference, and with one where no face is 0.
    #[test]
    fn wrong_maps_are_noticed() {
        let by_version_1 = |sheet: &Sheet, cube: &Cube| {
            let version = VERSIONS[0];
            let records = sheet.records.clone();
            colour::colour(&Sheet { version, records }, cube)
        };
        let all_white = |_: &Sheet, _: &Cube| Colour {
            class: WHITE,
            face: 0,
        };
        assert!(found(&by_version_1).lines().iter().all(|line| !line.1));
        let [maps, _, touch] = found(&all_white).lines();
        assert!(!maps.1 && !touch.1);
        // Half of the rule of version 2: white and black touch within it.
        assert!(found(&zero_in).touch.is_some());
        // The other half alone is version 1 at bounds that begin at 0: nothing of version 2 is white at its walls.
        assert_eq!(found(&zero_not_out).touches[0], 0);
    }

    #[test]
    fn answers_off_all_faces_are_noticed() {
        let mut random = Random::of_case(1, "version maps", 0);
        let plan = two_plans(&mut random)[0].clone();
        let far = [i32::MIN, i32::MAX, i32::MIN + 1];
        let mut found = Found::default();
        found.answers(&plan, far, [reply(0, 1), reply(0, 2)]);
        assert_eq!(found.answer, None);
        found.answers(&plan, far, [reply(0, 1), reply(0, 0)]);
        assert!(found.answer.is_some());
        let mut found = Found::default();
        found.answers(&plan, far, [reply(0, 1), reply(10, 0)]);
        assert!(found.answer.is_some());
    }
}
