//! Maps of the rule before request 2026-03. The library no longer builds them, so the paper does; the library opens them
//! and looks points up in them. Demand 3 holds of them, beside the library's own maps too, and the library's map of a
//! sheet keeps each answer that the old one gives. The library refines old maps too, and demand 3 holds of what they become.

use crate::case::{hex, Case, Lent, Lookup, Refine};
use crate::demand3::{self, built, Built};
use crate::demand3_run::{self, note};
use crate::expect::{by_paper, of_reply};
use crate::group::{on_two_servers, Setup};
use crate::maps;
use crate::plan::{self, Plan};
use crate::random::Random;
use crate::rooms;
use crate::server::Server;
use crate::tally::add_each;
use paper::before_03;
use paper::colour::GRAY;
use paper::lookup::UNDECIDED;
use paper::map::{self, HEADER, LEAF};
use paper::{reply, Reply};

/// The number of whole points looked up in a map and the leaves that they are taken from, and of points around the root.
const IN_LEAVES: usize = 12;
const AROUND: usize = 4;

/// The maps of a sheet over one root, at one depth: by the rule of before, and by the library.
pub struct Pair {
    pub old: Built,
    pub new: Built,
}

/// What was counted, and what is wrong: by demand 3, in a lookup or an opening, and in what the change must keep.
#[derive(Default)]
pub struct Found {
    pub demand: demand3_run::Found,
    lookup: Option<String>,
    pub change: Option<String>,
    lookups: u64,
    /// Old maps that were refined, and those whose leaves were replaced by others than one gray leaf each.
    refined: u64,
    replaced: u64,
    /// Lookups that an old map answers by outside or inside, and those that only the new one does.
    kept: u64,
    decided: u64,
    /// Maps that the change makes shorter.
    shorter: u64,
    /// The leaves of the old and the new maps, and the gray ones among them.
    leaves: [u64; 2],
    gray: [u64; 2],
}

/// Tests the maps of `sheets` sheets, over two roots each, on two servers.
pub fn run(setup: &Setup, sheets: u64) -> Result<Found, String> {
    let hold = |number, server: &mut Server, found: &mut Found| {
        let mut random = Random::of_case(setup.seed, "before 2026-03", number);
        found.one_sheet(&mut random, server).map(|()| true)
    };
    let [mut all, other] = on_two_servers(setup, sheets, hold)?;
    all.add(other);
    Ok(all)
}

/// A sheet of demand 3, half the time one that mentions a face more than once.
pub fn sheet(random: &mut Random) -> Plan {
    if random.once_in(2) {
        return rooms::mentioning(random);
    }
    demand3::sheet(random)
}

impl Pair {
    /// The maps of a sheet, at a depth at which the old one is not too long; None if they are refused.
    pub fn of(
        plan: &mut Plan,
        random: &mut Random,
        server: &mut Server,
    ) -> Result<Option<Pair>, String> {
        let leaves = demand3::depth(plan, &before_03::colour, random);
        let Ok(bytes) = before_03::map_of(&plan.bytes(), &plan.root) else {
            return Ok(None);
        };
        let old = Built::read(bytes, &plan.sheet());
        let old = old.map_err(|refusal| format!("an old map does not open: {refusal:?}"))?;
        let new =
            built(plan, leaves, server)?.ok_or("the library refuses a sheet of an old map")?;
        Ok(Some(Pair { old, new }))
    }
}

/// Whole points of some leaves, and others in and around the root.
pub fn whole_points(map: &Built, random: &mut Random) -> Vec<[i32; 3]> {
    let mut points = Vec::new();
    for _ in 0..IN_LEAVES {
        let (cube, _) = map.leaves[random.below(map.leaves.len())];
        let mut along = |low: i64| (low + random.between(0, cube.side - 1)) as i32;
        points.push(cube.low.map(&mut along));
    }
    points.extend((0..AROUND).map(|_| maps::point(&map.root, random)));
    points
}

impl Found {
    fn add(&mut self, other: Found) {
        self.demand.add(other.demand);
        self.lookup = self.lookup.take().or(other.lookup);
        self.change = self.change.take().or(other.change);
        self.lookups += other.lookups;
        self.refined += other.refined;
        self.replaced += other.replaced;
        self.kept += other.kept;
        self.decided += other.decided;
        self.shorter += other.shorter;
        add_each(&mut self.leaves, &other.leaves);
        add_each(&mut self.gray, &other.gray);
    }

    fn one_sheet(&mut self, random: &mut Random, server: &mut Server) -> Result<(), String> {
        let mut plan = sheet(random);
        let (mut old, mut new, mut refined) = (Vec::new(), Vec::new(), Vec::new());
        for _ in 0..2 {
            if let Some(pair) = Pair::of(&mut plan, random, server)? {
                self.demand.points(&plan, &pair.old, random);
                self.opens(&plan, &pair.old, server)?;
                let points = whole_points(&pair.old, random);
                self.looks_up(&plan, &pair, &points, server)?;
                self.shrinks(&plan, &pair);
                refined.push(self.refines(&plan, &pair.old, random, server)?);
                old.push(pair.old);
                new.push(pair.new);
            }
            plan.root = demand3::other_root(&plan.root, random);
        }
        self.demand.touches(&plan, &old, &new);
        self.demand.touches(&plan, &refined, &old);
        self.demand.touches(&plan, &refined, &new);
        Ok(())
    }

    /// The library refines an old map as the paper does, and points agree with its leaves.
    fn refines(
        &mut self,
        plan: &Plan,
        old: &Built,
        random: &mut Random,
        server: &mut Server,
    ) -> Result<Built, String> {
        let sheet = plan.sheet();
        let opened = map::read_for(&old.bytes, &sheet).map_err(|_| "an old map does not open")?;
        let most = opened.leaves.len() + random.below(300);
        let (d, leaves) = plan::deepest_refined(&sheet, &opened, plan.root.k.min(10), most);
        let case = Case::Refine(Refine {
            placing: 0,
            sheet: plan.bytes(),
            map: old.bytes.clone(),
            d,
            out_len: HEADER + LEAF * leaves,
            out_seed: 1,
        });
        let given = server.ask(&case)?;
        if given != by_paper(&case) {
            let wrong = format!("an old map refined; replay {}", hex(&case.request()));
            note(&mut self.lookup, plan, wrong);
        }
        let refined = Built::read(given.out, &sheet);
        let refined = refined.map_err(|_| "an old map, refined, does not open")?;
        self.refined += 1;
        self.replaced += u64::from(refined.bytes[HEADER..] != old.bytes[HEADER..]);
        self.demand.points(plan, &refined, random);
        Ok(refined)
    }

    /// The library opens an old map, with as many leaves as it has.
    fn opens(&mut self, plan: &Plan, old: &Built, server: &mut Server) -> Result<(), String> {
        let (placing, bytes) = (0, old.bytes.clone());
        let opened = server.ask(&Case::Open(Lent { placing, bytes }))?;
        if opened != of_reply(reply(0, old.leaves.len())) {
            let wrong = format!("{:?}: an old map opens by {opened:?}", old.root);
            note(&mut self.lookup, plan, wrong);
        }
        Ok(())
    }

    /// The library looks points up in the old map as the paper does, and in its own map it keeps what the old one answers.
    pub fn looks_up(
        &mut self,
        plan: &Plan,
        pair: &Pair,
        points: &[[i32; 3]],
        server: &mut Server,
    ) -> Result<(), String> {
        let asked = |map: &Built| {
            Case::Lookup(Lookup {
                placing: 0,
                sheet: plan.bytes(),
                map: map.bytes.clone(),
                points: points.to_vec(),
            })
        };
        let in_old = asked(&pair.old);
        let old = server.ask(&in_old)?;
        if old != by_paper(&in_old) {
            let wrong = format!("a lookup in an old map; replay {}", hex(&in_old.request()));
            note(&mut self.lookup, plan, wrong);
        }
        let new = server.ask(&asked(&pair.new))?;
        for (at, (old, new)) in old.replies.iter().zip(&new.replies).enumerate() {
            self.keeps(plan, points[at], *old, *new);
        }
        Ok(())
    }

    /// The answer in the new map is that in the old one, unless that one is undecided.
    fn keeps(&mut self, plan: &Plan, point: [i32; 3], old: Reply, new: Reply) {
        let undecided = old == reply(0, UNDECIDED);
        self.lookups += 1;
        self.kept += u64::from(old.code == 0 && !undecided);
        self.decided += u64::from(undecided && new != old);
        let may_differ = undecided && new.code == 0;
        if new != old && !may_differ {
            let wrong = format!("{point:?}: {old:?} before, now {new:?}");
            note(&mut self.change, plan, wrong);
        }
    }

    /// The library's map is not longer than the old one, and has no more gray leaves.
    pub fn shrinks(&mut self, plan: &Plan, pair: &Pair) {
        let maps = [&pair.old, &pair.new];
        let leaves = maps.map(|map| map.leaves.len() as u64);
        let gray = maps.map(|map| {
            let leaves = map.leaves.iter();
            leaves.filter(|(_, leaf)| leaf.colour.class == GRAY).count() as u64
        });
        add_each(&mut self.leaves, &leaves);
        add_each(&mut self.gray, &gray);
        self.shorter += u64::from(leaves[1] < leaves[0]);
        if leaves[1] > leaves[0] || gray[1] > gray[0] {
            let wrong = format!("{:?}: a longer map, or more gray", pair.old.root);
            note(&mut self.change, plan, wrong);
        }
    }

    pub fn print(&self) {
        self.demand.print();
        for told in self.lookup.iter().chain(&self.change) {
            println!("BEFORE 2026-03: {told}");
        }
        let ([old, new], [old_gray, new_gray]) = (self.leaves, self.gray);
        println!(
            "    {} maps are shorter: {new} leaves for {old}, {new_gray} gray for {old_gray}",
            self.shorter
        );
    }

    /// Each check, and whether it is passed.
    pub fn lines(&self) -> [(String, bool); 4] {
        let counts = &self.demand.counts;
        [
            (
                format!("maps of before 2026-03, points: {} points agree", counts.points),
                self.demand.point.is_none(),
            ),
            (
                format!(
                    "maps of before 2026-03, no touch: {} white and black of one map, {} of two, of which one or both are old",
                    counts.pairs, counts.pairs_of_two_maps
                ),
                self.demand.touch.is_none(),
            ),
            (
                format!(
                    "maps of before 2026-03, calls: {} maps opened and refined, {} of them to other leaves, {} lookups as the paper says",
                    self.refined, self.replaced, self.lookups
                ),
                self.lookup.is_none() && self.replaced > 0,
            ),
            (
                format!(
                    "maps of before 2026-03, kept: {} answers stay, {} undecided before are decided",
                    self.kept, self.decided
                ),
                self.change.is_none() && self.decided > 0 && self.shorter > 0,
            ),
        ]
    }
}
