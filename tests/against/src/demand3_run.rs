//! Runs the checks of demand 3, and runs them on maps that break it, which they must notice.

use crate::case::hex;
use crate::demand3::{self, built, place, points_of, touching, wrong_leaf, Built, Counts};
use crate::group::{on_two_servers, Setup};
use crate::plan::Plan;
use crate::random::Random;
use crate::server::Server;
use crate::tally::add_each;
use crate::{wrong_builds, wrong_versions};
use paper::build::{map_by, Colouring};
use paper::colour;
use paper::fractions::Point;
use paper::map::{self, Leaf};
use paper::root::{Cube, Root};
use paper::sheet::{Record::*, Sheet, Version, Version::*};

impl Counts {
    pub fn add(&mut self, other: &Counts) {
        self.leaves += other.leaves;
        self.points += other.points;
        self.pairs += other.pairs;
        self.pairs_of_two_maps += other.pairs_of_two_maps;
        self.not_aligned += other.not_aligned;
        add_each(&mut self.maps, &other.maps);
        add_each(&mut self.on_faces, &other.on_faces);
        add_each(&mut self.roots, &other.roots);
        add_each(&mut self.by_class, &other.by_class);
    }
}

/// What was counted, and what broke the demand: for points, and for touching leaves.
#[derive(Default)]
pub struct Found {
    pub counts: Counts,
    pub point: Option<String>,
    pub touch: Option<String>,
}

impl Found {
    pub fn add(&mut self, other: Found) {
        self.counts.add(&other.counts);
        self.point = self.point.take().or(other.point);
        self.touch = self.touch.take().or(other.touch);
    }

    /// Tests points of a map against its leaves.
    pub fn points(&mut self, plan: &Plan, map: &Built, random: &mut Random) {
        self.counts.maps[place(plan.version)] += 1;
        self.counts.leaves += map.leaves.len() as u64;
        let points = map.points(random);
        let wrong = wrong_leaf(&plan.sheet(), &map.leaves, &points, &mut self.counts);
        if let Some(wrong) = wrong {
            note(&mut self.point, plan, format!("{:?}, {wrong:?}", map.root));
        }
    }

    /// Tests white leaves against black ones: in each map, in two of them, and in one of them and one of some others.
    pub fn touches(&mut self, plan: &Plan, maps: &[Built], others: &[Built]) {
        if let [one, two] = maps {
            demand3::count_roots(&one.root.cube(), &two.root.cube(), &mut self.counts);
        }
        let mut touched = None;
        for (a, some) in maps.iter().enumerate() {
            for (b, more) in maps.iter().chain(others).enumerate() {
                let pairs = if a == b {
                    &mut self.counts.pairs
                } else {
                    &mut self.counts.pairs_of_two_maps
                };
                touched = touched.or(touching(&some.leaves, &more.leaves, pairs));
                if b >= maps.len() {
                    touched = touched.or(touching(&more.leaves, &some.leaves, pairs));
                }
            }
        }
        if let Some(pair) = touched {
            note(&mut self.touch, plan, format!("{pair:?}"));
        }
    }

    /// Prints what broke the demand, and what was covered.
    pub fn print(&self) {
        for told in self.point.iter().chain(&self.touch) {
            println!("DEMAND 3: {told}");
        }
        let counts = &self.counts;
        let [white, black, terminal, complement, gray] = counts.by_class;
        let ([one, two], [on_one, on_two]) = (counts.maps, counts.on_faces);
        println!(
            "    {one} maps of version 1 and {two} of version 2, with {} leaves; points on a face of the solid: {on_one} and {on_two}",
            counts.leaves
        );
        let [overlapping, adjacent, apart] = counts.roots;
        println!(
            "    two roots of a sheet: {overlapping} overlapping, {adjacent} side by side, {apart} apart; \
             {} not aligned",
            counts.not_aligned
        );
        println!(
            "    points in closed leaves: {white} white, {black} black, {terminal} terminal, \
             {complement} terminal by complement, {gray} gray"
        );
    }
}

/// Keeps the first thing that is wrong with the maps of a sheet.
pub fn note(first: &mut Option<String>, plan: &Plan, wrong: String) {
    first.get_or_insert_with(|| format!("sheet {}: {wrong}", hex(&plan.bytes())));
}

/// Tests the demand on `sheets` sheets, each with two maps, on two servers.
pub fn run(setup: &Setup, sheets: u64) -> Result<Found, String> {
    let hold = |number, server: &mut Server, found: &mut Found| {
        let mut random = Random::of_case(setup.seed, "demand 3", number);
        let (plan, maps) = two_maps(&mut random, server)?;
        for map in &maps {
            found.points(&plan, map, &mut random);
        }
        found.touches(&plan, &maps, &[]);
        Ok(true)
    };
    let [mut all, other] = on_two_servers(setup, sheets, hold)?;
    all.add(other);
    Ok(all)
}

/// A sheet and its maps over roots that overlap, lie side by side or differ in size: two maps, if neither
/// is refused.
fn two_maps(random: &mut Random, server: &mut Server) -> Result<(Plan, Vec<Built>), String> {
    let mut plan = demand3::sheet(random);
    let leaves = demand3::depth(&mut plan, &colour::colour, random);
    let first = built(&plan, leaves, server)?;
    plan.root = demand3::other_root(&plan.root, random);
    let leaves = demand3::depth(&mut plan, &colour::colour, random);
    let second = built(&plan, leaves, server)?;
    Ok((plan, first.into_iter().chain(second).collect()))
}

/// Turns over one leaf in each of some maps. Returns how many were turned over, and how many of these the points
/// noticed.
pub fn turned_over(setup: &Setup, sheets: u64) -> Result<(u64, u64), String> {
    let mut server = Server::named(&setup.library)?;
    let (mut turned, mut noticed) = (0, 0);
    for number in 0..sheets {
        let mut random = Random::of_case(setup.seed, "turned over", number);
        let mut plan = demand3::sheet(&mut random);
        let leaves = demand3::depth(&mut plan, &colour::colour, &mut random);
        let Some(mut map) = built(&plan, leaves, &mut server)? else {
            continue;
        };
        let Some(cube) = map.turn_over(&mut random) else {
            continue;
        };
        turned += 1;
        noticed += u64::from(is_noticed(&plan, &map, &cube, &mut random));
    }
    Ok((turned, noticed))
}

/// Whether points of a cube show that a map is wrong.
pub fn is_noticed(plan: &Plan, map: &Built, cube: &Cube, random: &mut Random) -> bool {
    let points = points_of(cube, random);
    wrong_leaf(&plan.sheet(), &map.leaves, &points, &mut Counts::default()).is_some()
}

/// The leaves of a sheet's map by a wrong colouring, over 0 to 4, at a depth.
fn wrong_map(colouring: &Colouring, sheet: &Sheet, d: u8) -> Result<Vec<(Cube, Leaf)>, String> {
    let low = [0, 0, 0];
    let opened = map_by(colouring, sheet, &Root { low, k: 2, d })
        .and_then(|bytes| map::read_for(&bytes, sheet))
        .map_err(|refusal| format!("{refusal:?}"))?;
    Ok(opened.cubes().collect())
}

/// The strip with x from 1 to 2 misses every corner of a cube with x from 0 to 4: sampling corners calls it white.
pub fn strip_is_noticed() -> Result<bool, String> {
    let mut strip = crate::maker::Maker::default();
    let solid = strip.between(0, 1, 2);
    let (version, records) = (One, strip.with_solid(solid));
    let sheet = Sheet { version, records };
    let leaves = wrong_map(&wrong_builds::corners, &sheet, 0)?;
    let point = Point {
        numerators: [3, 1, 1],
        denominator: 2,
    };
    Ok(wrong_leaf(&sheet, &leaves, &[point], &mut Counts::default()).is_some())
}

/// With [0, 2] called Out in version 1, or [-2, 0] called In in version 2, white at x from 2 to 4 touches black at x from 0
/// to 2. Two faces make the root gray.
pub fn touch_is_noticed() -> Result<bool, String> {
    let touches = |version: Version, colouring: &Colouring| -> Result<bool, String> {
        let faces = [X, Constant(2), Difference(0, 1), Face(2), Face(2)];
        let records = [&faces[..], &[Both(3, 4)]].concat();
        let leaves = wrong_map(colouring, &Sheet { version, records }, 1)?;
        Ok(touching(&leaves, &leaves, &mut 0).is_some())
    };
    let one = touches(One, &wrong_builds::zero_out)?;
    Ok(one && touches(Two, &wrong_versions::zero_in)?)
}
