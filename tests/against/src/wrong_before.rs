//! Wrong maps of the rule before request 2026-03, which the checks of such maps must notice.

use crate::before_03::{sheet, Found, Pair};
use crate::demand3_run::is_noticed;
use crate::group::Setup;
use crate::plan::Plan;
use crate::random::Random;
use crate::server::Server;
use paper::root::Cube;

/// How many old maps had a leaf turned over, and how many of these the points, the lookups and the touching leaves showed.
/// How many were exchanged for the library's shorter one, and how many of these were noticed.
#[derive(Default)]
pub struct Noticed {
    turned: u64,
    by_points: u64,
    by_lookups: u64,
    by_touch: u64,
    exchanged: u64,
    by_length: u64,
}

/// Tries the checks on the maps of some sheets.
pub fn run(setup: &Setup, sheets: u64) -> Result<Noticed, String> {
    let mut server = Server::named(&setup.library)?;
    let mut noticed = Noticed::default();
    for number in 0..sheets {
        let mut random = Random::of_case(setup.seed, "wrong before 2026-03", number);
        let mut plan = sheet(&mut random);
        let Some(mut pair) = Pair::of(&mut plan, &mut random, &mut server)? else {
            continue;
        };
        if let Some(cube) = pair.old.turn_over(&mut random) {
            noticed.turned(&plan, &pair, &cube, &mut random, &mut server)?;
        }
        noticed.exchanged(&plan, pair);
    }
    Ok(noticed)
}

impl Noticed {
    fn turned(
        &mut self,
        plan: &Plan,
        pair: &Pair,
        cube: &Cube,
        random: &mut Random,
        server: &mut Server,
    ) -> Result<(), String> {
        let mut found = Found::default();
        let corner = cube.low.map(|low| low as i32);
        found.looks_up(plan, pair, &[corner], server)?;
        let maps = [&pair.old, &pair.new].map(std::slice::from_ref);
        found.demand.touches(plan, maps[0], maps[1]);
        self.turned += 1;
        self.by_points += u64::from(is_noticed(plan, &pair.old, cube, random));
        self.by_lookups += u64::from(found.change.is_some());
        self.by_touch += u64::from(found.demand.touch.is_some());
        Ok(())
    }

    fn exchanged(&mut self, plan: &Plan, Pair { old, new }: Pair) {
        if new.leaves.len() < old.leaves.len() {
            let (old, new) = (new, old);
            let mut found = Found::default();
            found.shrinks(plan, &Pair { old, new });
            self.exchanged += 1;
            self.by_length += u64::from(found.change.is_some());
        }
    }

    /// The check, and whether it is passed. A leaf turned over need not touch another, so that some are enough there.
    pub fn line(&self) -> (String, bool) {
        let what = format!(
            "maps of before 2026-03, wrong: of {} leaves turned over, points show {}, lookups {} and touching leaves {}; \
             of {} exchanged maps, the length shows {}",
            self.turned, self.by_points, self.by_lookups, self.by_touch, self.exchanged, self.by_length
        );
        let all = [self.by_points, self.by_lookups, self.by_length]
            == [self.turned, self.turned, self.exchanged];
        (what, all && self.by_touch > 0 && self.exchanged > 0)
    }
}
